readable -p -p
