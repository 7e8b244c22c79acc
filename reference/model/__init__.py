"""The model: what cases, traces, journals, commands and routers do, read from the rules alone.

One file a topic:

* `numbers`   decimals, hexadecimal fields, names: how a field is spelled
* `nets`      addresses, lengths and masks
* `octets`    numbers in bytes
* `events`    keys, ties, inputs and the order of events
* `case`      the plain data of a case
* `shapes`    the shapes of the lines of a case text
* `causes`    why a line of a case text is bad
* `casetext`  case text both ways
* `node`      the node step, for a guest of any kind
* `guests`    the guests: flooding, OSPF, RIP
* `lockstep`  the lockstep run, by a heap
* `trace`     trace text, and the split of a trace section
* `journal`   journal text both ways
* `world`     a world and its steps
* `replay`    `rerun` of a journal and the schedule of `shake`
* `lines`     an input that is read line by line
* `live`      live lines and their stamps
* `commands`  how the debugger's commands are spelled, and what a break matches
* `probes`    the probes of the debugger
* `debugger`  a session and its transcript
* `program`   words, statuses, standard output and standard error
"""
