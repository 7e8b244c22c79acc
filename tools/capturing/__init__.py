"""What `tools/capture` is made of: packets that real routers sent, played to one of ours.

* `captures`   pcap and pcapng files: packets with their times
* `frames`     a frame's OSPF or RIP message, or why it has none
* `playback`   the case: a flooding router for each sender, linked to ours, whose commands are the messages
"""
