"""Trials of the built program on image files: see main.py."""
