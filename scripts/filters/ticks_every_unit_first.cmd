ticks 0 10 s1
