"""What the tools in tools/ share: reading what the program reads and writes, and saying it in words.

The tools are tested, not proved, and the program doesn't depend on them. The codecs of both protocols, of cases and of
journals are those of `reference/model`, which this package puts on the path; nothing is decoded twice.

One file a topic:

* `tool`      what every command has: arguments, input, output, errors
* `reading`   a case, its trace and its journal as records; `Run`, `Row`, `State`
* `network`   names, neighbours at ports, moments and seconds
* `packets`   a message's bytes: the decoded packet, its kind, and what it says in words
* `commands`  commands and links as words, both ways (`set 10.0.0.0/8 cost 3`, `down a b`)
* `rowwords`  an input and a row in one line of words
* `states`    a final state: its image decoded to the model's router, and what it holds in words

A tool begins with

    from library import tool
    from library.reading import read_run

    def main() -> int:
        run = read_run(tool.read(chosen.file))
        for row in run.rows: ...

and ends with `tool.run(main)`. A bad input is raised as `BadInput` with words that say what is wrong with it and at
which line; `tool.run` prints them and ends with status 1.
"""

import os
import sys

sys.path.append(os.path.join(os.path.dirname(os.path.dirname(os.path.dirname(os.path.abspath(__file__)))), "reference"))
