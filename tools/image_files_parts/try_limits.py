"""Trials at the limits of image files, and on texts that are no JSON or no whole numbers."""

import json

from inspect_trials.try_common import good_files, read
from inspect_trials.try_limits import LIMITS, install, instructions, with_edits
from inspect_trials.try_texts import KEYS_TWICE, VALUES, WHOLE
from inspect_trials.written import file_text

from .said import only_check, try_file

# Letters of two, three and four bytes.
FURTHER = [0x80, 0xE9, 0x7FF, 0x800, 0x2028, 0xD7FF, 0xE000, 0xFEFF, 0xFFFF, 0x10000, 0x10FFFF]


def place_of(wanted):
    """The place of a refusal, or None for good."""
    return None if wanted == "good" else wanted.split(":")[0]


def limits(program):
    """A file with as many of a thing as there may be is good and is saved; one with more is refused."""
    for make, most, wanted in LIMITS:
        try_file(program, f"{most} {make.__name__}", file_text(make(most)).encode())
        more = most + (2 if make is instructions else 1)
        only_check(program, f"{more} {make.__name__}", file_text(make(more)).encode(), place_of(wanted))
    return f"{2 * len(LIMITS)} files"


def texts(program):
    """Values of a capacity, whole texts, and keys that come twice."""
    text = read(good_files()["message-waits"])
    changes = [(text.replace(b'"capacity":64', b'"capacity":' + value), wanted) for value, wanted in VALUES]
    changes += [(text.replace(b'"capacity":64', keys), wanted) for keys, wanted in KEYS_TWICE]
    for data, wanted in [*WHOLE, *changes]:
        only_check(program, f"{data[:200]}", data, place_of(wanted))
    return f"{len(WHOLE) + len(changes)} texts"


def letters(program):
    """A letter in a comment is refused, or is saved with the escape that JSON asks for."""
    codes = [code for code in range(0x80) if chr(code) != '"'] + FURTHER
    for code in codes:
        try_file(program, f"letter {code}", json.dumps(with_edits(install(f'a "{chr(code)}" ^1'))).encode())
    return f"{len(codes)} letters"


TRIALS = (limits, texts, letters)
