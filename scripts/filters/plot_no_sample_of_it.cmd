plot -n '{__name__="c"}'
