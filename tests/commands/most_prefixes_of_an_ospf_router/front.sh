bash "$CASE/stdin.sh"
printf 'feed\nend\n'
