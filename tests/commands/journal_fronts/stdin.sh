cat examples/smallest.case
head -c "$1" "$CASE/journal"
