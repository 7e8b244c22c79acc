source tests/commands/many_rows.sh
many_rows ''
whole_trace
