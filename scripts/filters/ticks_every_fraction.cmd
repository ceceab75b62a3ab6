ticks 0 10 1.5s
