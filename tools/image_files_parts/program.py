"""The built program: what it says, and what is said where it says something else."""

import os
import subprocess
from typing import NamedTuple

from trial_parts.patience import PATIENCE

# Of a longer text a part is shown, which begins so many letters before the first that differs.
LONGEST, BEFORE = 300, 60


class Different(Exception):
    """What the program says, writes or leaves is not what it is to be."""


def same(about, found, wanted):
    if found != wanted:
        texts = repr(found), repr(wanted)
        start = max(0, len(os.path.commonprefix(texts)) - BEFORE)
        raise Different(f"{about}: there is {shortened(texts[0], start)} and not {shortened(texts[1], start)}")


def shortened(text, start):
    """A part of a long text, from a place on."""
    if len(text) <= LONGEST:
        return text
    return (".. " if start else "") + text[start : start + LONGEST] + (" .." if start + LONGEST < len(text) else "")


class Ended(NamedTuple):
    status: int
    out: bytes
    err: bytes


class Program:
    """The program at a path, with a folder for the files of one trial."""

    def __init__(self, path, folder):
        self.path, self.folder = path, folder

    def run(self, *words, given=b"", **more):
        """The end of a run, to which the bytes of standard input are given."""
        if "stdin" not in more:
            more["input"] = given
        ended = subprocess.run([self.path, *words], stderr=subprocess.PIPE, **{"stdout": subprocess.PIPE, "timeout": PATIENCE, **more})
        return Ended(ended.returncode, ended.stdout, ended.stderr)

    def check(self, file):
        return self.run("check", file)

    def script(self, file, *lines, options=(), **more):
        """A session on an image file, with these lines."""
        given = b"".join(line + b"\n" for line in lines)
        return self.run("script", "--image", file, *map(str, options), given=given, **more)

    def replies(self, about, file, lines, options=()):
        """The replies to lines, in a session that ends well."""
        ended = self.script(file, *lines, options=options)
        same(about, (ended.status, ended.err), (0, b""))
        return ended.out.splitlines()

    def at(self, *names):
        """A path in the folder."""
        return os.path.join(self.folder, *names)

    def within(self, name):
        """The program with a new folder in this one."""
        os.mkdir(self.at(name))
        return Program(self.path, self.at(name))

    def put(self, name, data):
        """The path of a new file in the folder."""
        with open(self.at(name), "wb") as file:
            file.write(data)
        return self.at(name)


def settings(quantum, capacity):
    return ("--quantum", quantum, "--capacity", capacity)


def named(name, words=""):
    """What is said of a refusal: its name, and what it was about, where that is known."""
    return "".join(f"{line}\n" for line in (f"actorimage: {name}", words) if line).encode()


def refusal(name, words=""):
    """The end of a session that is refused, and writes no reply."""
    return Ended(1, b"", named(name, words))
