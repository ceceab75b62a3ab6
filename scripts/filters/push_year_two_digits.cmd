push_lines -y 26 '{a="x"}'
