rules_from_yaml x
