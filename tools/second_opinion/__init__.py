"""A second implementation of the language, written from its rules alone, and what compares it with a built program."""
