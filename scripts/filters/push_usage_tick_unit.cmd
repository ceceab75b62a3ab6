push_lines --tick '1m' '{app="a"}'
