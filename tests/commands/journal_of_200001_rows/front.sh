source tests/commands/many_rows.sh
many_rows "$ONE_MORE"
cut_trace
