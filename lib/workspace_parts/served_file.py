"""The image's file of a server, as the words tell with which the server was started."""

import os

from common.sockets import process_of


def file_of(connected):
    """The file with which the server at the other end was started; None if it has none, or that cannot be seen."""
    try:
        process = f"/proc/{process_of(connected)}"
        with open(f"{process}/cmdline", encoding="utf-8", errors="replace") as file:
            name = named(file.read().split("\0"))
        return name and from_here(os.readlink(f"{process}/cwd"), name)
    except (OSError, AttributeError):
        return None


def named(words):
    """The value of --image."""
    for word, following in zip(words, [*words[1:], ""]):
        if word == "--image":
            return following
        if word.startswith("--image="):
            return word.removeprefix("--image=")
    return None


def from_here(folder, name):
    """A name that the server's folder gives a meaning, as it is written here."""
    return name if os.path.samefile(folder, os.curdir) else os.path.join(folder, name)
