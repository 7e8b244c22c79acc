head -c "$1" examples/two_routers.case
