cat examples/two_routers.case
