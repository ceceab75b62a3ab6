push_lines -y 20266 '{a="x"}'
