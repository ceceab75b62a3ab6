push_lines -k t '{a="x"}'
