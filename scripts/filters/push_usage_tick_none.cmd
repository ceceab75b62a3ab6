push_lines --tick
