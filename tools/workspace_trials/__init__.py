"""The trials of bin/workspace."""
