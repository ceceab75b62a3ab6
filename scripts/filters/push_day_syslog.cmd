push_lines -d 'Nov 27' '{a="x"}'
