"""What `tools/sweep` is made of: many runs of a case with other seeds and delays, grouped by what the routers end with.

* `jobs`    seeds and factors, and the case text of each run
* `runs`    one run of the program, and what its routers ended with
* `pools`   who does the runs: the processors of this machine, or a Dask cluster
* `table`   the groups, and the first row at which two of them part

A worker of a cluster needs `runs`, `library` and the model alone, which `pools` sends to it.
"""
