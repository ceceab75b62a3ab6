readable -p
