plot -x
