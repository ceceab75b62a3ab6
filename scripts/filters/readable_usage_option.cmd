readable -x
