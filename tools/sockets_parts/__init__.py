"""Trials of a built program's server, beside those of tools/sockets."""
