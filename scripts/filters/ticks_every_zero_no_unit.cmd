ticks 0 10 0
