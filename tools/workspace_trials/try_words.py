"""Trials of words: that each refusal and fault has its sentence, what completion offers, and which lines are one entry."""

import os
import re

from common.repository import TOP
from workspace_parts import advice, served_advice
from workspace_parts.commands import COMMANDS
from workspace_parts.cutting import entries
from workspace_parts.in_general import IN_GENERAL
from workspace_parts.known import Known
from workspace_parts.status import NAMES
from workspace_parts.terminal import candidates, read_entry
from workspace_parts.turns import HISTORY

from .try_common import same


def document(name):
    with open(os.path.join(TOP, "docs", name), encoding="utf-8") as file:
        return file.read()


def cells(text, after, column):
    """The cells of a column of the first table after a text."""
    rows = text[text.index(after) :].split("\n|---", 1)[1].split("\n\n", 1)[0].split("\n")[1:]
    return [row.split("|")[column + 1].strip() for row in rows if row]


def names_in(cell):
    """The names of refusals in a cell: what begins with a capital, but for what is in brackets or begins a sentence."""
    cell = re.sub(r"\([^()]*\)", "", cell)
    return set(re.findall(r"(?<!\. )\b[A-Z][A-Za-z]+", cell))


def all_refusals(program):
    """Each refusal, kind and fault of the documents has its sentence."""
    text = document("PROTOCOL.md")
    refusals = set(cells(text, "In these cases a session ends", 0)) | {"BadCommand"}
    for cell in cells(text, "## Refusals", 1) + cells(text, "Fields of refusals", 0):
        refusals |= names_in(cell)
    same(sorted(advice.REFUSALS), sorted(refusals))
    told = set.union(*(names_in(cell) for cell in cells(document("OPERATING.md"), "## At a refusal", 0)))
    same(sorted(advice.REFUSALS), sorted(told))
    values = cells(text, "Fields of refusals", 2)
    same(sorted(advice.KINDS), sorted(re.findall("`([A-Za-z]+)`", values[0])))
    same(sorted(advice.MOST), sorted(re.findall("`([a-z]+)`", values[2])))
    faults = set(re.findall("`([A-Za-z]+)`", text[text.index("Names of faults:") :].split("\n")[0]))
    faults |= set(re.findall("the fault `([A-Za-z]+)`", document("LANGUAGE.md")))
    same(sorted(advice.FAULTS), sorted(faults))
    for name in advice.names():
        if "{" in advice.explain(name) or ";" not in advice.explain(name):
            raise AssertionError(f"the sentence of {name} does not say what to do, or has braces")


def served(program):
    """What is said of a served image stands in place of something, and says what to do."""
    same(set(served_advice.REFUSALS) - {*advice.REFUSALS, *advice.MOST}, set())
    same(set(served_advice.IN_GENERAL) - set(advice.REFUSALS), set())
    same(set(served_advice.COMMANDS) - set(COMMANDS), set())
    same(set(served_advice.NOT_THERE) & set(COMMANDS), set())
    in_general = {**advice.REFUSALS, **IN_GENERAL, **served_advice.IN_GENERAL}
    for name, sentence in [*served_advice.REFUSALS.items(), *in_general.items()]:
        if ";" not in sentence or "{" in in_general.get(name, ""):
            raise AssertionError(f"the sentence of {name} does not say what to do, or has braces")
    for sentence in (*served_advice.REFUSALS.values(), *served_advice.IN_GENERAL.values()):
        same((":run" in sentence, ":restart" in sentence), (False, False))


def limits(program):
    """There are as many items of a history, and names, as the documents say."""
    for limit in (f"| items of the history | {HISTORY:,} |", f"including the kernel's 22 | {NAMES:,} |"):
        same((limit, limit in document("LIMITS.md")), (limit, True))


def completion(program):
    """What a word may be the beginning of."""
    known = Known()
    known.define("Counter", "Object", ["count"])
    known.define("Stepper", "Counter", [])
    known.classes["Counter"].methods = {"bump": "bump  ^count", "by:": "by: n\n  ^n"}
    known.classes["Stepper"].methods = {"bounce": "bounce"}
    known.names = {"c": {"ref": 0}, "s": {"ref": 1}, "n": 3}
    known.actor(0).class_name, known.actor(1).class_name = "Counter", "Stepper"
    for before, text, wanted in (
        ("", ":st", [":step ", ":status ", ":stats "]),
        ("", "Cou", ["Counter"]),
        ("c ", "b", ["bump", "by:"]),
        ("c bump. s ", "b", ["bounce", "bump", "by:"]),
        ("x := s ", "bo", ["bounce"]),
        ("Counter ", "", ["actor"]),
        ("c by: ", "", ["c", "s", "n", *known.classes, "bounce", "bump", "by:"]),
        ("Counter >> ", "bu", ["bump  ^count"]),
        ("Counter >> ", "b", ["bump  ^count", "by: n"]),
        (":stats ", "St", ["Stepper"]),
        (":remove Counter ", "by", ["by:"]),
        (":post c ", "bu", ["bump"]),
        (":senders ", "b", ["bounce", "bump", "by:"]),
        (":senders ", "ifT", ["ifTrue:", "ifTrue:ifFalse:"]),
        (":implementors ", "ne", ["new", "newActor"]),
        (":references ", "Co", ["Counter"]),
        (":references ", "co", ["count"]),
        (":references count ", "", ["of"]),
        (":references count of ", "St", ["Stepper"]),
        (":actors ", "Co", ["Counter"]),
        (":actors Counter ", "f", ["failed"]),
        (":close ", "", ["c", "s", "n"]),
        (":load ", os.path.join(TOP, "cra"), [os.path.join(TOP, "crates/"), os.path.join(TOP, "crates.txt")]),
        (":load ", "/no/such/", []),
    ):
        same((before, text, candidates(known, before, text)), (before, text, wanted))


def several_lines(program):
    """What is typed over several lines."""
    for lines, wanted in (
        (["c bump"], "c bump"),
        (["C >> m  ^3"], "C >> m  ^3"),
        (["C >> m", "^3", ""], "C >> m\n  ^3"),
        (["C >> m | a |", "  a := 3.", "^a", ""], "C >> m | a |\n  a := 3.\n  ^a"),
        (["C >> m  [true] whileTrue: [", "nil]. ", "^3", ""], "C >> m  [true] whileTrue: [\n  nil]. \n  ^3"),
        (["C >> m  ^(3 +", ""], "C >> m  ^(3 +"),
        (["C >> m  a := 3.", "^a", ""], "C >> m  a := 3.\n  ^a"),
        (["C >> m  ^a +", "3", ""], "C >> m  ^a +\n  3"),
        (["C >> m  self a;", "b", ""], "C >> m  self a;\n  b"),
        (["C >> m  ^3."], "C >> m  ^3."),
        (["C >> m  a foo. ^a and: [b. c]."], "C >> m  a foo. ^a and: [b. c]."),
        (["C >> m  a := [^3]. b.", "c", ""], "C >> m  a := [^3]. b.\n  c"),
        (["C >> at:put:"], "C >> at:put:"),
        (["C >> at: x put:"], "C >> at: x put:"),
        (["c bump."], "c bump."),
        (["c say: (c", "bump)"], "c say: (c\n  bump)"),
        (['"a', 'b" c bump'], '"a\n  b" c bump'),
        (["C >> m", "^3", None], "C >> m\n  ^3"),
        (["c say: (c", None], "c say: (c"),
        (["> c bump"], "c bump"),
        ([""], ""),
    ):
        left = list(lines)
        same((read_entry(lambda prompt: read_one(left)), left), (wanted, []))


def later_lines(program):
    """At a terminal a line that begins with blanks goes on with a method in one line before it, and with nothing else."""
    for before, lines, wanted in (
        ("C >> m  ^a > 0", ["    ifTrue: [3]", ""], "C >> m  ^a > 0\n    ifTrue: [3]"),
        ("C >> m  a bump", ["  . a bump.", "^a", ""], "C >> m  a bump\n  . a bump.\n  ^a"),
        ("C >> m  ^3", ["\t+ 4", None], "C >> m  ^3\n\t+ 4"),
        ("C >> m  ^3", [" c bump"], " c bump"),
        ("C >> m  ^3", ["   "], "   "),
        ("C >> m\n  ^3", ["  c bump"], "  c bump"),
        ("c bump", ["  c bump"], "  c bump"),
        (":classes", ["  c bump"], "  c bump"),
        ("", ["  c bump"], "  c bump"),
    ):
        left = list(lines)
        same((read_entry(lambda prompt: read_one(left), before), left), (wanted, []))


def read_one(lines):
    """The next line; None stands for the end of the input."""
    line = lines.pop(0)
    if line is None:
        raise EOFError
    return line


def cut(program):
    """Which lines of a file are one entry."""
    for text, wanted in (
        ("C >> m\n^3\n^4\n\nc m", ["C >> m\n  ^3\n  ^4", "c m"]),
        ("C >> m\n\nc m", ["C >> m", "c m"]),
        ("C >> m\n:run", ["C >> m", ":run"]),
        ("C >> m\nD : C", ["C >> m", "D : C"]),
        ("C >> m\nC >> n  ^1\n^3", ["C >> m", "C >> n  ^1", "^3"]),
        ('C >> m\n"why\n\nnot"\n^3', ['C >> m\n  "why\n  \n  not"\n  ^3']),
        ('C >> m\n"why"\n  ^3', ['C >> m\n  "why"\n  ^3']),
        ('C >> m\n"why"\n\n^3', ["C >> m", '"why"', "^3"]),
        ("\ufeffc m\nc n", ["c m", "c n"]),
        ("> c m\n3\n> C >> m\n    ^3\n\n    + 4\n> c m\n    7", ["c m", "C >> m\n  ^3\n\n  + 4", "c m\n  7"]),
        ("> C >> m\n  | a |\n    a := 3.\n  ^a\n\n  printed\n> c m", ["C >> m\n  | a |\n  a := 3.\n  ^a", "c m"]),
        ("> C >> m  ^zork\n  ^zork\n   ^ UnknownName\n> c m", ["C >> m  ^zork", "c m"]),
        ("c m\n> C >> m\n> c n\nc m", ["c m", "C >> m", "c n"]),
    ):
        same([entry.text for entry in entries(text.split("\n"))], wanted)


TRIALS = (all_refusals, served, limits, completion, several_lines, later_lines, cut)
