# A command of 255 bytes, but for its end.
printf 'defined 1\nperiod 1\ngroups 1\nseed 0\nrouter a flood\nfeed\n@0 a cmd '
printf '7f%.0s' {1..255}
