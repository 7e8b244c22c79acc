"""What `tools/import` is made of: readers of networks that people have, and the case text that is written of them.

Each reader makes a `Network` of module `network`, which notes line by line what couldn't be taken. One file a form:

* `network`     routers, links, feed and notes; names; the case that they make
* `words`       a feed in words: `down a b`, `withdraw a 10.1.0.0/16`
* `graphml`     GraphML as the Internet Topology Zoo has it
* `node_link`   JSON of networkx: node-link or adjacency data
* `forms`       all forms, and how one is known by its look
* `graphs`      what both of these share: a networkx graph as a network
* `topotest`    the topology JSON of an FRR topotest
* `frr`         configurations of FRR routers
* `jsons`       the object of a JSON text
* `toml_case`   a case in TOML
* `case_words`  a case text whose feed is in words

A new form is a file with `read(text, settings) -> Network` and a line in `FORMS` of `forms`.
"""
