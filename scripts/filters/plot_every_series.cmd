plot -n
