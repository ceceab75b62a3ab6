push_lines -n 1 -y 2027 '{a="x"}'
