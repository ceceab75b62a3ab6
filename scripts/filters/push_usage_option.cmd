push_lines -x '{a="x"}'
