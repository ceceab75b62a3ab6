push_lines -n 0 '{a="x"}'
