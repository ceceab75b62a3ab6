push_lines -n 1 -y 2026 '{a="x"}'
