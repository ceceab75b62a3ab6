push_lines -y x '{a="x"}'
