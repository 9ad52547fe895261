"""Trials of `:sources`: what is loaded from it gives the same text."""

import os
import tempfile

from workspace_parts.breaks import Breaks
from workspace_parts.images import OwnImage
from workspace_parts.session import Session

from .try_common import same

# Sources as other clients write them, and as `:sources` has them.
SOURCES = {
    "a ^1": "a ^1",
    " b\n^1 ": "b\n  ^1",
    "c\n\n\n ^1\n": "c\n\n\n   ^1",
    "d": "d  ^self",
    "e: x\r\n\"why\"\r\n\t| y |": 'e: x\n  "why"\n\t| y |  ^self',
    '"first" f ^1 "last\n\nof all"': '"first" f ^1 "last\n\n  of all"',
}


def same_again(program):
    """Classes that were put under later ones, methods of the kernel's classes, and sources that nobody typed."""
    with tempfile.TemporaryDirectory() as folder:
        one, two = (Session(OwnImage(program, ()), Breaks(), lambda line: None) for _ in range(2))
        for line in ("C : Object", "A : Object | a |", "B : Object", "A >> a  ^a", "True >> no  ^false", "B >> b\n  ^C new", "C : B"):
            one.do(line)
        for source in SOURCES:
            one.turns.ask({"cmd": "method", "class": "C", "source": source})
            one.known.install("C", source, source)
        text = sources(one, os.path.join(folder, "one.st"))
        two.do(f":load {folder}/one.st")
        same(sources(two, os.path.join(folder, "two.st")), text)
        of_c = "".join(f"C >> {it}\n" for it in SOURCES.values())
        same(text, f"B : Object\nC : B\nA : Object | a |\nTrue >> no  ^false\nB >> b\n  ^C new\n{of_c}A >> a  ^a\n")
        one.end()
        two.end()


def sources(session, path):
    """The text of the classes and methods."""
    session.do(f":sources {path}")
    with open(path, encoding="utf-8") as file:
        return file.read()


TRIALS = (same_again,)
