# 34 routers, and links of each of 32 routers to the next eight: 256, and 16 ports at each.
printf 'defined 1\nperiod 1\ngroups 1\nseed 0\n'
printf 'router r%d flood\n' {0..33}
for link in {0..255}; do
    end=$((link % 32))
    echo "link r$end r$(((end + link / 32 + 1) % 32)) 1 1"
done
