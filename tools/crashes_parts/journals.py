"""What an image's file and its journal say, read as docs/PROTOCOL.md tells it."""

import hashlib
import json
import os

from .redoing import Redone


def read(path):
    with open(path, "rb") as file:
        return file.read()


def whole_lines(text):
    """The lines that count: those before the first that does not begin with a brace or has no newline."""
    lines = []
    while text.startswith(b"{") and b"\n" in text:
        line, _, text = text.partition(b"\n")
        lines.append(line)
    return lines


def lines_beside(path):
    """The lines of the journal that goes on from the image of a file, without the first."""
    wanted = hashlib.sha256(read(path)).hexdigest()
    for name in (path + ".journal", path + ".journal.new"):
        lines = whole_lines(read(name)) if os.path.exists(name) else []
        if lines and json.loads(lines[0]) == {"journal": {"capacity": 64, "format": 1, "image": wanted}}:
            return lines[1:]
    assert not os.path.exists(path + ".journal") or not whole_lines(read(path + ".journal")), "no journal goes on from the image"
    return []


def recovered(path):
    """The image to which a file and its journal lead, by the second implementation, and how many lines were done again."""
    image = Redone(json.loads(read(path)))
    lines = lines_beside(path)
    for line in lines:
        image.redo(json.loads(line))
    return image, len(lines)
