"""Trials of a built program at its limits: what there is at each, and one more."""
