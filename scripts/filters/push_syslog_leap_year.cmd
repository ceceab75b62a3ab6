push_lines -y 2024 '{a="x"}'
