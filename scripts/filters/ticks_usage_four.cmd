ticks 0 10 1s 5
