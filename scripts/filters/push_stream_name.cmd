push_lines '{9a="x"}'
