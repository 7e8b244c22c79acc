cat examples/two_routers.case
head -c $((16777217 - 114)) /dev/zero | tr '\0' '\n'
