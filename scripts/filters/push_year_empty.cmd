push_lines -y '' '{a="x"}'
