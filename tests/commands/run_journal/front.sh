cat "examples/$1.out"
