# Two OSPF routers, and 32 prefixes of the first.
printf 'defined 1\nperiod 1\ngroups 1\nseed 0\nrouter o ospf\nrouter p ospf\n'
printf 'prefix o %d.0.0.0/8 65535\n' {0..31}
