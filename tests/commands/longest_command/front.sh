bash "$CASE/stdin.sh"
printf '\nend\n'
