ticks 10 12.5 1s
