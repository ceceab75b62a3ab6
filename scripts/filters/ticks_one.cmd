ticks 100 100 1m
