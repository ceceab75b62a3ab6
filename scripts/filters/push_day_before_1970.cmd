push_lines -d 1969-12-31 '{a="x"}'
