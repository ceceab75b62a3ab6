push_lines -n 2 '{a="x"}'
