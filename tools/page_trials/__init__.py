"""The trials of bin/page."""
