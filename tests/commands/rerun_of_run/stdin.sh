cat "examples/$1.case"
