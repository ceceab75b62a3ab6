ticks 10.25 13.2 1s
