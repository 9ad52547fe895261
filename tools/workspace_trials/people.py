"""Transcripts of several people at work on one served image: who types what, and what it must give."""

import os
import re
import tempfile
from dataclasses import dataclass, field

from trial_parts.patience import until
from trial_parts.turns import turns

from .person import Person
from .serving import Server

TYPED = re.compile(r"([a-z]+)> (.*)")
MORE = re.compile(" {4}")
LATER = re.compile(r"\(([a-z]+)\)")
GOES_ON = "(goes on)"
SERVE = re.compile(r"serve((?: --[a-z]+ \S+)+)")


@dataclass
class Entry:
    """Who types what, and the lines that it must give; no text where an entry of before has to be done now. `line` is its place."""

    line: int
    person: str
    text: str
    wanted: list = field(default_factory=list)


@dataclass
class Meeting:
    path: str
    served: list
    entries: list = field(default_factory=list)


def is_meeting(path):
    with open(path, encoding="utf-8") as file:
        return any(TYPED.fullmatch(line) for line in file.read().splitlines())


def meeting(path):
    """The transcript of a file. What a person types stands behind the name, as in `one> c bump`, and what it must give stands below.
    Where that is `(goes on)`, it has a turn that goes on, and is not done before others have typed more; below `(one)` stands what it gives
    then. What a workspace says when it begins stands below the first that is typed into it. After an empty line, what comes before the
    next of these says nothing, but for the options of the server, as in `serve --workers 2`."""
    found, last, is_over = Meeting(path, []), None, True
    with open(path, encoding="utf-8") as file:
        lines = file.read().splitlines()
    for number, line in enumerate(lines, 1):
        typed, later, options = TYPED.fullmatch(line), LATER.fullmatch(line), SERVE.fullmatch(line)
        if typed or later and line != GOES_ON:
            last = Entry(number, *typed.groups()) if typed else Entry(number, later[1], "")
            found.entries.append(last)
            is_over = False
        elif options and is_over:
            found.served = options[1].split()
        elif not line.strip():
            is_over = True
        elif not is_over and last.text and not last.wanted and MORE.match(line):
            last.text += "\n" + line
        elif not is_over:
            last.wanted.append(line.rstrip())
    return found


def first_difference(program, meeting):
    """Where a meeting differs from what is printed; None where it does not."""
    people = {}
    with tempfile.TemporaryDirectory() as folder, Server(program, folder, *meeting.served):
        try:
            return play(meeting, people, folder) or left(meeting, people)
        finally:
            for person in people.values():
                person.kill()


def left(meeting, people):
    """Who does not leave as it should be; None if all do."""
    statuses = {name: person.end() for name, person in people.items()}
    return f"{meeting.path}: the workspaces end with status {statuses}" if any(statuses.values()) else None


def play(meeting, people, folder):
    path = os.path.join(folder, "socket")
    for entry in meeting.entries:
        if entry.person not in people:
            people[entry.person] = Person(folder, "--socket", "socket", "--sender", str(len(people)))
        person = people[entry.person]
        before = turns(path) if entry.wanted == [GOES_ON] else None
        if entry.text:
            person.type(entry.text)
        if before is not None:
            until(lambda: turns(path) - before, f"{meeting.path}:{entry.line}: no turn goes on")
            continue
        given = person.gives()
        if given != entry.wanted:
            printed = ["nothing yet"] if given is None else given
            return "\n".join([f"{meeting.path}:{entry.line}: printed is", *printed, "and not", *entry.wanted])
    return None
