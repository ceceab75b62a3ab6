push_lines -n 2x '{a="x"}'
