push_lines --spread -n 2 --tick 86400 '{app="a"}'
