ticks 
