plot -o
