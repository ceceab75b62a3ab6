push_lines --spread -n 1 '{a="x"}'
