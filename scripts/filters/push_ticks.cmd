push_lines --tick 60 '{app="a"}'
