"""The trials of bin/inspect."""
