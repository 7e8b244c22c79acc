"""What `tools/topology` and `tools/chart` are made of.

* `picture`    a case as text of Graphviz: routers, links, what is down, a shortest-path tree
* `standing`   which ports are down at a group, and the shortest-path tree over the links that are up
* `timeline`   a run as the rows of a chart: messages with their senders, what was rolled back and unsent
* `rollbacks`  what a journal's steps take back
* `page`       the page with the chart: data, view and style in one file
* `piece`      a piece of a chart as SVG

The chart's view is in `tools/chart_view`, in JavaScript, and knows nothing of cases: it draws the data of `timeline`.
"""
