"""What trials of several tools have in common."""
