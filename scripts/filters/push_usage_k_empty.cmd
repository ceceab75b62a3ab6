push_lines -k '' '{a="x"}'
