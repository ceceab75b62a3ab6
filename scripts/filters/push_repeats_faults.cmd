push_lines -n 1 '{a="x"}'
