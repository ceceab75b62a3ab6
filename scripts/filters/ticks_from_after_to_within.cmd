ticks 100.5 100.25 1s
