echo "differs at $(wc -c < "examples/$1.out")"
