ticks 0 30000 1h30m
