"""Worked scripts as texts: the files of tests/scripts.

A file has its scripts with an empty line between two. The first line of a script is `quantum N, capacity N: ` and what it shows. Then come
lines, each after `> ` and with its reply below it. A part whose lines begin with `#` says nothing.
"""

import os
import re

from common.repository import TOP

from .script import Script

FOLDER = os.path.join(TOP, "tests", "scripts")
FIRST = re.compile(r"quantum (\d+), capacity (\d+): (.+)")
TYPED = "> "


class Malformed(Exception):
    """A file is no text of scripts."""


def names():
    return sorted(name.removesuffix(".txt") for name in os.listdir(FOLDER))


def parted(name, number, text):
    """The script of a part, whose first line has this number in the file."""
    first, *rest = text.split("\n")
    settings = FIRST.fullmatch(first)
    if not settings or not rest or len(rest) % 2:
        raise Malformed(f"{name}.txt:{number}: no first line of a script, or not a reply to each line")
    script = Script(f"{name}.txt:{number}: {settings[3]}", int(settings[1]), int(settings[2]))
    for place in range(0, len(rest), 2):
        line, reply = rest[place : place + 2]
        if not line.startswith(TYPED) or reply.startswith(TYPED):
            raise Malformed(f"{name}.txt:{number + 1 + place}: a line after {TYPED!r} is to be here, with its reply below it")
        script.add(line.removeprefix(TYPED), reply)
    return script


def scripts(name):
    """The scripts of a file."""
    with open(os.path.join(FOLDER, f"{name}.txt"), encoding="utf-8", newline="\n") as file:
        text = file.read().removesuffix("\n")
    number = 1
    for part in text.split("\n\n"):
        if not all(line.startswith("#") for line in part.split("\n")):
            yield parted(name, number, part)
        number += part.count("\n") + 2
