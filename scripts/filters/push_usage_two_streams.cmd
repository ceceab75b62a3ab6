push_lines '{a="x"}' more
