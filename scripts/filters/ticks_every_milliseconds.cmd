ticks 0 10 500ms
