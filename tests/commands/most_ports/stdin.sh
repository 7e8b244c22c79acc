# Three routers, and 16 links of two of them.
printf 'defined 1\nperiod 1\ngroups 1\nseed 0\n'
printf 'router r%d flood\n' {0..2}
for _ in {1..16}; do
    echo link r0 r1 1 1
done
