ticks -1 0 1s
