push_lines -n 1 -k @timestamp '{a="x"}'
