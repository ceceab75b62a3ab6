push_lines -d 2262-04-12 '{a="x"}'
