push_lines -d 27.11.2026 '{a="x"}'
