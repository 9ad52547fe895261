"""JSON without blanks, as lines and image files have it. The library for programs is one file, and has its own."""

import json


def compact(value):
    """The text of a value as the program writes it: keys by their letters."""
    return json.dumps(value, ensure_ascii=False, separators=(",", ":"), sort_keys=True)


def in_given_order(value):
    """The text of a value with the keys as they stand."""
    return json.dumps(value, ensure_ascii=False, separators=(",", ":"))
