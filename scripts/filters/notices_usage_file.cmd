notices x
