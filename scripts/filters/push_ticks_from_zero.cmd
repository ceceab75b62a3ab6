push_lines -t 1 '{app="a"}'
