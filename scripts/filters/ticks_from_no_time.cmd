ticks now 10 1s
