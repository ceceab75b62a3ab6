push_lines -s -n 1 '{a="x"}'
