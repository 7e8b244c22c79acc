"$PROGRAM" lockstep < tests/commands/shake_mixed/stdin
