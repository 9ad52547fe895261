"""Journals of a script and of a server whose waits for the disk fail."""

import contextlib
import json
import os
import signal
import tempfile

from crashes_parts.journals import recovered
from image_files_parts.program import Different, Ended, Program, named, same
from image_files_parts.saving import end_of, going_on
from image_files_parts.try_held import FIRST
from image_files_parts.try_journal import ACTOR, CLASS, done, journaled
from image_files_parts.try_served import ask, connected
from trial_parts.patience import until

from .shim import made_in
from .syncs import SOURCE, Disk

SAVE = {"cmd": "save"}


def actors(path):
    return len(recovered(path)[0].actors)


def ends_unanswered(end, lines, command):
    """A session ends without a reply."""
    with contextlib.suppress(OSError):
        end.sendall(json.dumps(command).encode() + b"\n")
        same("the reply where the disk refuses", lines.readline(), b"")


def of_a_script(program, disk):
    """No reply is passed on that may not be true after a crash: the script ends, and the next one goes on from what was told."""
    path = program.at("file")
    with going_on(program, path, "--journal", env=disk.env) as (script, asked):
        same("a class", asked(FIRST), b'{"ok":{"version":1}}')
        disk.refuse()
        same("no reply", asked(json.dumps(ACTOR).encode()), b"")
        ended = end_of(script)
        same("the end", (ended.status, ended.err.splitlines()[-1]), (1, named("WriteFault").rstrip(b"\n")))
    disk.be_well()
    found = actors(path)
    same("it is there or not", found in (0, 1), True)
    with going_on(program, path, "--journal") as (script, asked):
        same("the next actor", asked(json.dumps(ACTOR).encode()), b'{"ok":{"actor":%d}}' % found)
        same("the end", end_of(script), Ended(0, b"", b""))


def of_replies(program, disk):
    """With 0 milliseconds a session ends where its reply may not be true, and the server goes on. Once the disk is well again all is told that
    happened, once."""
    path = program.at("file")
    with journaled(program, path, "--sync", "0", sessions=9, env=disk.env) as (server, end, lines):
        done(end, lines, CLASS, ACTOR)
        disk.refuse()
        ends_unanswered(end, lines, ACTOR)
        with connected(server, program.at("socket")) as other, other.makefile("rb") as replies:
            ends_unanswered(other, replies, ACTOR)
        disk.be_well()
        with connected(server, program.at("socket")) as other, other.makefile("rb") as replies:
            same("the next actor", ask(other, replies, ACTOR), {"ok": {"actor": 3}})
            server.send_signal(signal.SIGKILL)
            server.wait()
    same("actors", actors(path), 4)


def of_a_second_wait(program, disk):
    """Where the wait for the whole batch went well and the one for its first byte did not, the batch is cut off and told again, and only then
    a reply may come."""
    path = program.at("file")
    with journaled(program, path, "--sync", "0", sessions=9, env=disk.env) as (server, end, lines):
        done(end, lines, CLASS, ACTOR)
        disk.refuse()
        end.sendall(json.dumps(ACTOR).encode() + b"\n")
        same("a true reply or none", lines.readline() in (b"", b'{"ok":{"actor":1}}\n'), True)
        with connected(server, program.at("socket")) as other, other.makefile("rb") as replies:
            same("the next actor", ask(other, replies, ACTOR), {"ok": {"actor": 2}})
            server.send_signal(signal.SIGKILL)
            server.wait()
    same("actors", actors(path), 3)


def of_a_pause(program, disk):
    """With a pause sessions go on meanwhile. It is said once, and all is told once the disk is well again."""
    path = program.at("file")
    with journaled(program, path, "--sync", "10", env=disk.env) as (server, end, lines):
        done(end, lines, CLASS)
        until(lambda: recovered(path)[1] == 1, "the class is told")
        disk.refuse()
        for _ in range(50):
            done(end, lines, ACTOR)
        journal = os.path.realpath(path).encode() + b".journal"
        same("it is said", server.stderr.readline(), b"actorimage: the journal is not written: " + journal + b": Input/output error\n")
        disk.be_well()
        done(end, lines, ACTOR)
        until(lambda: actors(path) == 51, "all is told")
        same("it is said once more", server.stderr.readline(), b"actorimage: the journal is written again: " + journal + b"\n")
        server.send_signal(signal.SIGKILL)
        _, err = server.communicate()
    same("no more is said", err, b"")
    same("actors", actors(path), 51)


def of_a_save(program, disk):
    """A save whose folder refuses is refused, whichever of both images is there then; behind it the journal goes on, and so do saves."""
    path = program.at("file")
    with journaled(program, path, "--sync", "0", sessions=9, env=disk.env) as (server, end, lines):
        done(end, lines, CLASS, ACTOR)
        disk.refuse()
        same("a save", ask(end, lines, SAVE).get("error"), "WriteFault")
        same("what is there", actors(path), 1)
        disk.be_well()
        done(end, lines, ACTOR)
        same("a save of a disk that is well again", list(ask(end, lines, SAVE)), ["ok"])
        done(end, lines, ACTOR)
        disk.refuse()
        same("another save", ask(end, lines, SAVE).get("error"), "WriteFault")
        disk.be_well()
        done(end, lines, ACTOR)
        server.send_signal(signal.SIGKILL)
        server.wait()
    same("actors", actors(path), 4)
    with journaled(program, path) as (server, end, lines):
        same("the next actor", ask(end, lines, ACTOR), {"ok": {"actor": 4}})


# What the disk refuses in each trial.
TRIALS = {of_a_script: "REFUSE_SYNC", of_replies: "REFUSE_SYNC", of_a_second_wait: "REFUSE_SECOND", of_a_pause: "REFUSE_SYNC", of_a_save: "REFUSE_FOLDERS"}


def check(program):
    """Whether all was well, which is printed."""
    with tempfile.TemporaryDirectory() as room:
        shim = made_in(room, SOURCE)
        for trial, what in TRIALS.items():
            disk = Disk(shim, room, what)
            with tempfile.TemporaryDirectory() as folder:
                try:
                    trial(Program(program, folder), disk)
                except Different as difference:
                    print(f"tools/refusing-disk: journal, {trial.__name__}: {difference}")
                    return False
            if os.path.exists(disk.sign):
                disk.be_well()
    print("tools/refusing-disk: journal: a script and four servers went on from what was told, once the disk was well again")
    return True
