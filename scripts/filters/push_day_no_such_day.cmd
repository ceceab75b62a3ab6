push_lines -d 2026-02-29 '{a="x"}'
