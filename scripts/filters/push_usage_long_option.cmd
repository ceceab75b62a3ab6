push_lines --spred '{a="x"}'
