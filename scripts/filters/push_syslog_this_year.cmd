push_lines '{a="x"}'
