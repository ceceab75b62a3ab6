push_lines -y 0x7e '{a="x"}'
