ticks 100 160 1m
