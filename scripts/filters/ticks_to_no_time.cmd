ticks 0 now 1s
