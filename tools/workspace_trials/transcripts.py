"""Transcripts: what was typed, after `> `, and what it must give."""

import os
import re
import subprocess
import sys
import tempfile
from contextlib import nullcontext
from dataclasses import dataclass, field

from trial_parts.patience import PATIENCE

from .serving import Server

PROMPT = "> "
# A line of a transcript that goes on with the one before has two spaces in place of the prompt, and two or more of its own.
MORE = re.compile(r"    |  \t")
OPTIONS = re.compile(r"(workspace|serve)((?: --[a-z]+ \S+)+)$")


@dataclass
class Typed:
    """An entry with the number of its first line in the file, and the lines that it must give."""

    line: int
    text: str
    wanted: list = field(default_factory=list)


@dataclass
class Transcript:
    """`served` has the options of the server where the image is a served one, and `options` those of the workspace."""

    path: str
    options: list
    served: list
    entries: list = field(default_factory=list)


def transcript(path):
    """The transcript of a file. After an empty line, what comes before the next `> ` says nothing, but for a line of options,
    as `workspace --quantum 16`, or as `serve --workers 2` where the image is a served one."""
    found, last, empty = Transcript(path, [], []), None, 0
    with open(path, encoding="utf-8") as file:
        lines = file.read().splitlines()
    for number, line in enumerate(lines, 1):
        options = OPTIONS.match(line)
        if line.startswith(PROMPT) or line == PROMPT.strip():
            last = Typed(number, line[len(PROMPT) :])
            found.entries.append(last)
        elif last and not last.wanted and MORE.match(line):
            last.text += "\n" * (empty + 1) + line[len(PROMPT) :]
        elif last and line.strip() and not empty:
            last.wanted.append(line.rstrip())
        elif line.strip():
            last = None
            if options:
                (found.served if options[1] == "serve" else found.options).extend(options[2].split())
        empty = 0 if line.strip() else empty + 1
    return found


def given(workspace, program, transcript):
    """The lines that the workspace prints for a transcript, and its status. It runs in a folder of its own, in which it sees
    those of the repository."""
    text = "".join(entry.text + "\n" for entry in transcript.entries)
    where = ["--socket", "socket"] if transcript.served else ["--program", program]
    command = [sys.executable, workspace, *where, *transcript.options]
    top = os.path.dirname(os.path.dirname(workspace))
    with tempfile.TemporaryDirectory() as folder:
        for name in ("docs", "examples", "tests"):
            os.symlink(os.path.join(top, name), os.path.join(folder, name))
        with Server(program, folder, *transcript.served) if transcript.served else nullcontext():
            ended = subprocess.run(command, input=text.encode(), capture_output=True, timeout=PATIENCE, cwd=folder)
    return (ended.stdout + ended.stderr).decode().splitlines(), ended.returncode


def first_difference(workspace, program, transcript):
    """Where a transcript differs from what is printed; None where it does not."""
    lines, status = given(workspace, program, transcript)
    place = 0
    for entry in transcript.entries:
        typed = [PROMPT + it if at == 0 else ("  " + it).rstrip() for at, it in enumerate(entry.text.split("\n"))]
        if not entry.text.strip():
            continue
        got = lines[place : place + len(typed)]
        place += len(typed)
        while place < len(lines) and not lines[place].startswith(PROMPT):
            got.append(lines[place].rstrip())
            place += 1
        if got != typed + entry.wanted:
            return "\n".join([f"{transcript.path}:{entry.line}: printed is", *got, "and not", *typed, *entry.wanted])
    if status:
        return f"{transcript.path}: the workspace ends with status {status}"
    return None
