"""The trials of bin/top."""
