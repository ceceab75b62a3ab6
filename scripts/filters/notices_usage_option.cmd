notices -x
