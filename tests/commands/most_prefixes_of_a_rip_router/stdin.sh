# Two RIP routers, and 32 prefixes of the first.
printf 'defined 1\nperiod 1\ngroups 1\nseed 0\nrouter r rip\nrouter s rip\n'
printf 'prefix r %d.0.0.0/8 1\n' {0..31}
