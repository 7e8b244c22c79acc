cat tests/commands/shake_mixed/stdin
