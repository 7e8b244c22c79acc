bash "$CASE/stdin.sh"
printf 'feed\n@0 r31 down 15\nend\n'
