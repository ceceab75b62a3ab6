push_lines '{app="nginx",host="a"}'
