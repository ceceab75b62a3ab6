push_lines --tick '86401' '{app="a"}'
