push_lines '{}'
