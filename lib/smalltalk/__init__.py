"""A reader and a compiler of the language in Python, written from its rules alone: those of the tools, and of the second implementation."""
