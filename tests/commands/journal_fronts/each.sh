seq 0 $(($(wc -c < "$CASE/journal") - 1))
