push_lines -d 2262-04-11 '{a="x"}'
