plot -n -o share.svg '{__name__="share",app="a"}'
