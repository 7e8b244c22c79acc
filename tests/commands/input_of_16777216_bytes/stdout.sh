cat examples/two_routers.out
