ticks 0 10 1
