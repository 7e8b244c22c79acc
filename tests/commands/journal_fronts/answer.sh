echo "line $((8 + $(head -c "$1" "$CASE/journal" | wc -l))): journal"
