ticks '' 0 1s
