push_lines -n '{a="x"}'
