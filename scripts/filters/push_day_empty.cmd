push_lines -d '' '{a="x"}'
