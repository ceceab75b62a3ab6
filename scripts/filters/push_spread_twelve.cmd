push_lines --spread '{a="x"}'
