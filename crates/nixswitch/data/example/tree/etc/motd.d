F 0644 0 0
Maintenance on Friday.
