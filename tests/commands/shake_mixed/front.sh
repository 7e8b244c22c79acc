"$PROGRAM" lockstep < "$CASE/stdin"
