push_lines '{app="nginx",host="a", path = "C:\\ \"x\" \n \u00e9 }, é	" , _9Z=""}'
