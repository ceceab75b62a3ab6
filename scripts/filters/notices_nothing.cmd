notices
