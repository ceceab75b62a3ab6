ticks 10.25 13.25 1s
