openmetrics -x
