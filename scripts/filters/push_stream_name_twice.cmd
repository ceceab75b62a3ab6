push_lines '{a="x",a="y"}'
