ticks 0 10 m
