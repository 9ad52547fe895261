"""Trials on the journal of a server whose disk is full, or whose files are not what it left."""

import os
import signal

from crashes_parts.journals import recovered
from inspect_trials.try_common import read
from trial_parts.patience import until

from .disks import NO_DISK, small_disk
from .program import same
from .try_journal import ACTOR, ANOTHER, CLASS, done, journaled, killed, not_journaled
from .try_served import ask

CHECKPOINT, SAVE = {"cmd": "checkpoint"}, {"cmd": "save"}
# So many actors are made while the disk is full, so that no batch of them is written.
MANY = 300
# And so many methods with long sources, which is more than is told at once.
LONG = 400


def filled(folder):
    """Fills a disk. What is removed makes room again."""
    path = os.path.join(folder, "filler")
    with open(path, "wb", buffering=0) as filler:
        try:
            while filler.write(bytes(1024)):
                pass
        except OSError:
            pass
    return path


def checkpoint_on_a_full_disk(program):
    """What a checkpoint has emptied while the disk was full is told once there is room, also behind a save that was refused meanwhile, before
    which more waits than is told at once."""
    with small_disk(program, "16m") as small:
        if small is None:
            return NO_DISK
        path = os.path.join(small, "file")
        with journaled(program, path, "--sync", "60000") as (server, end, lines):
            done(end, lines, CLASS, *[ACTOR] * 10)
            filler = filled(small)
            method = {"class": CLASS["name"], "cmd": "method", "source": "a " + 3000 * " " + "^1"}
            done(end, lines, *[method] * LONG, *[ACTOR] * MANY)
            same("a save", ask(end, lines, SAVE), {"error": "WriteFault"})
            for _ in range(2):
                done(end, lines, ACTOR, CHECKPOINT, ACTOR)
                same("another save", ask(end, lines, SAVE), {"error": "WriteFault"})
            os.remove(filler)
            done(end, lines, ACTOR)
            same("a save where there is room", list(ask(end, lines, SAVE)), ["ok"])
            done(end, lines, ACTOR)
            same("a save behind it", list(ask(end, lines, SAVE)), ["ok"])
            server.send_signal(signal.SIGKILL)
            server.wait()
        image, _ = recovered(path)
        same("actors and edits", (len(image.actors), image.classes.edits), (10 + MANY + 6, 1 + LONG))
    return "1 disk"


def refused_save_on_a_full_disk(program):
    """A save that is refused where the disk is full loses nothing of what waits to be told: it comes into the journal with what follows."""
    with small_disk(program, "16m") as small:
        if small is None:
            return NO_DISK
        path = os.path.join(small, "file")
        with journaled(program, path, "--sync", "20") as (server, end, lines):
            done(end, lines, CLASS)
            filler = filled(small)
            method = {"class": CLASS["name"], "cmd": "method", "source": "a " + 3000 * " " + "^1"}
            done(end, lines, *[method] * LONG, *[ACTOR] * MANY, CHECKPOINT)
            same("a save", ask(end, lines, SAVE), {"error": "WriteFault"})
            os.remove(filler)
            done(end, lines, *[ACTOR] * 5)
            until(lambda: len(recovered(path)[0].actors) == MANY + 5, "the journal is written")
            server.send_signal(signal.SIGKILL)
            out, err = server.communicate()
        journal = os.path.realpath(path).encode() + b".journal"
        said = [b"not written: " + journal + b": No space left on device", b"written again: " + journal]
        same("what is said", err.splitlines(), [b"actorimage: the journal is " + line for line in said])
        same("actors", len(recovered(path)[0].actors), MANY + 5)
    return "1 disk"


def damaged_journals(program):
    """A journal with something behind its lines that no crash leaves is refused, and both files stay."""
    path = program.at("file")
    image, journal = killed(program, path, CLASS, ACTOR, ACTOR)
    lines = journal.splitlines(keepends=True)[:-1]
    whole, second = b"".join(lines), len(lines[0])
    for data, line in (
        (b"X" + journal[1:], 1),
        (journal[:second] + b"\0" + journal[second + 1 :], 2),
        (whole + b'"actor":"Object"}\n', len(lines) + 1),
        (whole + b'{"actor":"Object"}', len(lines) + 1),
        (b"some other file\n", 1),
    ):
        program.put("file.journal", data)
        not_journaled(program, repr(data), path, "BadImage", f"{path}.journal: line {line}: is damaged")
        same(f"{data!r}: both files", (read(path), read(path + ".journal")), (image, data))
    for rest in (b"", b"\n", b"\0\0\0", b"\nwhatever\n"):
        program.put("file.journal", whole + rest)
        with journaled(program, path) as (_, end, asked):
            same(f"behind the lines {rest!r}", ask(end, asked, ACTOR), {"ok": {"actor": 2}})
        program.put("file", image)
    return "9 journals"


def journal_without_its_image(program):
    """Where the image's file is missing and a journal is there, nothing begins and no file is made."""
    path = program.at("file")
    killed(program, path, CLASS)
    os.remove(path)
    journal = read(path + ".journal")
    not_journaled(program, "no image", path, "BadImage", f"{path}.journal line 1: {ANOTHER}")
    same("the journal", read(path + ".journal"), journal)
    same("an image", os.path.exists(path), False)
    return "1 server"


TRIALS = (checkpoint_on_a_full_disk, refused_save_on_a_full_disk, damaged_journals, journal_without_its_image)
