cat "$CASE/stdin"
