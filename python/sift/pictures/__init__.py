"""Pictures of flights, schedules, campaigns and times."""
