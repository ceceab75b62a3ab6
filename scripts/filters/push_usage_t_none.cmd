push_lines -t
