push_lines -n 1 --spread '{a="x"}'
