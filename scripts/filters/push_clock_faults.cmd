push_lines -n 1 -d 2026-11-27 '{a="x"}'
