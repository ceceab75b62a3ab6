ticks 0 10 1m1h
