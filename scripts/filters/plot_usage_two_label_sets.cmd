plot '{}' '{}'
