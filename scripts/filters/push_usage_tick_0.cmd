push_lines --tick '0' '{app="a"}'
