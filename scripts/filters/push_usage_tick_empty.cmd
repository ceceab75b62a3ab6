push_lines --tick '' '{app="a"}'
