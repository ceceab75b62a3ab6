ticks 0 10 ''
