# 64 routers.
printf 'defined 1\nperiod 1\ngroups 1\nseed 0\n'
printf 'router r%d flood\n' {0..63}
