# Behind a newline a line is missing; any other front ends in a line without newline.
front=$(head -c "$1" examples/two_routers.case; echo x)
number=$(head -c "$1" examples/two_routers.case | wc -l)
case $front in
    x | *$'\n'x) echo "line $((number + 1)): ended" ;;
    *) echo "line $((number + 1)): syntax" ;;
esac
