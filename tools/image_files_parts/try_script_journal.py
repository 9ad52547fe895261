"""Trials on the journal of a script: what is there behind a kill, and how the next script goes on."""

import os

from crashes_parts.journals import recovered
from inspect_trials.try_common import EXAMPLES, read
from inspect_trials.written import file_text

from .program import Ended, named, refusal, same
from .saving import end_of, going_on
from .try_held import FIRST, HELD, SECOND, alone, text_of
from .try_journal import LEFT, header
from .try_paths import ENDINGS
from .try_saves import SCRIPTS

JOURNAL = ("--journal",)
SAVE = b'{"cmd":"save"}'
MEGABYTE = 1_000_000
# Behind so many lines a script is killed.
FEW = 4


def kept(about, path, text):
    """The image of a file and its journal is that of a text."""
    same(about, file_text(recovered(path)[0].file()).encode(), text)


def ends(program, about, path, *lines):
    """A script with a journal ends well: the image has all, and no journal is there."""
    same(f"{about}: the end", program.script(path, *lines, options=JOURNAL)._replace(out=b""), Ended(0, b"", b""))


def script_is_killed(program):
    """Behind each reply what it tells is there, and the next script goes on: its replies are those of one script of all lines, also the
    numbers of turns."""
    kills = 0
    for name in SCRIPTS:
        lines, path, whole = read(os.path.join(EXAMPLES, f"{name}.jsonl")).splitlines(), program.at(name), program.at("whole")
        wanted = program.replies(name, whole, lines)
        for first in range(0, len(lines), FEW):
            behind = min(first + FEW, len(lines))
            with going_on(program, path, *JOURNAL) as (script, asked):
                for place in range(first, behind):
                    same(f"{name}, line {place + 1}", asked(lines[place]), wanted[place])
                script.kill()
                script.wait()
            kept(f"{name}, behind line {behind}", path, text_of(program, *lines[:behind]))
            kills += 1
        ends(program, name, path)
        same(f"{name}: what is left", read(path), read(whole))
        # Nobody lets the new file of a killed script go, but the next one takes it.
        alone(program, name, "whole")
        for it in (path, whole):
            os.remove(it)
    return f"{len(SCRIPTS)} scripts, {kills} kills"


def script_saves_and_is_killed(program):
    """A save begins the journal anew, and what comes behind it is there too."""
    kills = 0
    for name in SCRIPTS:
        lines, path = read(os.path.join(EXAMPLES, f"{name}.jsonl")).splitlines(), program.at(name)
        for saved in range(0, len(lines), FEW):
            behind = min(saved + FEW // 2, len(lines))
            with going_on(program, path, *JOURNAL) as (script, asked):
                for place in range(behind):
                    asked(lines[place])
                    if place == saved:
                        asked(SAVE)
                        same(f"{name}, a save behind line {place + 1}", read(path + ".journal"), header(read(path)) + b"\n")
                script.kill()
                script.wait()
            text = text_of(program, *lines[:behind])
            kept(f"{name}, behind line {behind}", path, text)
            ends(program, name, path)
            same(f"{name}, behind line {behind}: what is left", read(path), text)
            os.remove(path)
            kills += 1
    return f"{len(SCRIPTS)} scripts, {kills} kills"


def script_saves_in_one_piece(program):
    """A save among lines that come at once: what was noted before it is in the image, and not in the journal that goes on from that."""
    for name in SCRIPTS:
        lines, path = read(os.path.join(EXAMPLES, f"{name}.jsonl")).splitlines(), program.at(name)
        half = len(lines) // 2
        with going_on(program, path, *JOURNAL) as (script, asked):
            asked(b"\n".join([*lines[:half], SAVE, *lines[half:]]))
            for _ in lines:
                script.stdout.readline()
            script.kill()
            script.wait()
        text = text_of(program, *lines)
        kept(f"{name}, a save behind line {half}", path, text)
        ends(program, name, path)
        same(f"{name}, a save behind line {half}: what is left", read(path), text)
    return f"{len(SCRIPTS)} scripts"


def long_journal_is_told_of(program):
    """That a journal of a megabyte or more is done again is said on standard error, since it may take seconds; of a shorter one nothing is."""
    empty = file_text({"actors": [], "edits": [], "format": 2, "names": [], "posts": 0, "senders": [], "steps": 0}).encode()
    line = b'{"actor":"Object"}\n'
    few = (MEGABYTE - 1) // len(line)
    for count, said in ((few, b""), (few + 1, b"actorimage: doing %s.journal again, 1 MB\n" % program.at("file").encode())):
        program.put("file", empty)
        program.put("file.journal", header(empty) + line * count + b"\n")
        same(f"{count} lines", program.script(program.at("file"), options=JOURNAL), Ended(0, b"", said))
    return "2 journals"


def refused_script_keeps_its_journal(program):
    """A script with a journal that is refused leaves image and journal, and nothing of it is lost. Without the journal no script goes on
    from there, and while a script goes on no other has the journal."""
    for line, name in ENDINGS:
        path = program.at("file")
        refused = program.script(path, FIRST, line, options=JOURNAL)
        same(f"{name}: its end", (refused.status, refused.err), (1, named(name.decode())))
        kept(f"{name}: both files", path, text_of(program, FIRST))
        same("a script without a journal", program.script(path, SECOND), refusal("WriteFault", f"{path}.journal {LEFT}"))
        with going_on(program, path, *JOURNAL) as (script, asked):
            same("an edit", asked(SECOND), b'{"ok":{"version":2}}')
            another = program.script(path, options=JOURNAL)
            same("a second script", another, refusal("WriteFault", f"{path}.new {HELD}"))
            same("the end", end_of(script), Ended(0, b"", b""))
        same("what is left", read(path), text_of(program, FIRST, SECOND))
        alone(program, "file")
        os.remove(path)
    return f"{len(ENDINGS)} scripts"


TRIALS = (script_is_killed, script_saves_and_is_killed, script_saves_in_one_piece, long_journal_is_told_of, refused_script_keeps_its_journal)
