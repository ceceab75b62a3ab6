openmetrics x
