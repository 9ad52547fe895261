"""Programs with counts by hand, run by a built program."""
