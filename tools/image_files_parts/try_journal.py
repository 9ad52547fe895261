"""Trials on the journal of a served image: when it is there and what it has, which journals are refused, and a disk that is full."""

import contextlib
import hashlib
import json
import os
import signal
import stat
import subprocess
import time

from common.compact import compact
from crashes_parts.journals import recovered
from inspect_trials.try_common import read
from inspect_trials.written import file_text
from trial_parts.patience import PATIENCE

from .disks import NO_DISK, small_disk
from .program import refusal, same
from .try_held import FIRST, HELD, SECOND
from .try_served import ask, connected, not_begun, words

CLASS = json.loads(FIRST)
ACTOR = {"class": CLASS["name"], "cmd": "actor"}
ANOTHER = "is the journal of another image"
# So many bytes of a journal are long with `--save-after 1`.
LONG = 1_000_000
# The bytes of a small disk.
DISK = 64 << 10
LEFT = "is there: what it tells is not in the image; serve that with --journal"


def header(data, capacity=64):
    digest = hashlib.sha256(data).hexdigest()
    return b'{"journal":{"capacity":%d,"format":1,"image":"%s"}}\n' % (capacity, digest.encode())


@contextlib.contextmanager
def journaled(program, path, *options, sessions=1, name="socket", **more):
    """A server with a journal, and a client's end of a session with its lines; it is killed where it is left."""
    command = [program.path, *words(program, path, sessions, name), "--journal", *options]
    with subprocess.Popen(command, stdout=subprocess.PIPE, stderr=subprocess.PIPE, **more) as server:
        try:
            with connected(server, program.at(name)) as end, end.makefile("rb") as lines:
                yield server, end, lines
        finally:
            server.kill()
            with contextlib.suppress(FileNotFoundError):
                os.remove(program.at(name))


def done(end, lines, *commands):
    for command in commands:
        same(f"{command}", "ok" in ask(end, lines, command), True)


def killed(program, path, *commands, options=("--sync", "0")):
    """What is there where a server is killed behind replies to these commands."""
    with journaled(program, path, *options) as (server, end, lines):
        done(end, lines, *commands)
        server.send_signal(signal.SIGKILL)
        server.wait()
    return read(path), read(path + ".journal")


def not_journaled(program, about, path, name, why, socket="socket", **more):
    ended = program.run(*words(program, path, name=socket), "--journal", **more)
    same(f"{about}: a server with a journal", ended, refusal(name, why))


def begun_and_ended(program):
    """A new image is saved before it has a journal, whose lines tell what happened; behind the end the image has it all, and no journal is
    there. The journal is its owner's alone. With 0 milliseconds all that was replied to is there behind a kill."""
    path = program.at("file")
    first, journal = killed(program, path, CLASS, ACTOR, {"cmd": "checkpoint"}, ACTOR)
    empty = {"actors": [], "edits": [], "format": 2, "names": [], "posts": 0, "senders": [], "steps": 0}
    same("the image", first, file_text(empty).encode())
    told = [{"edit": {"define": {"name": CLASS["name"], "slots": CLASS["slots"], "super": CLASS["super"]}}}, {"actor": CLASS["name"]}]
    told += [{"checkpoint": {}}, {"actor": CLASS["name"]}]
    same("the journal", journal, header(first) + b"".join(compact(it).encode() + b"\n" for it in told) + b"\n")
    same("its rights", stat.S_IMODE(os.stat(path + ".journal").st_mode), 0o600)
    image, _ = recovered(path)
    with journaled(program, path) as (server, end, lines):
        same("the next actor", ask(end, lines, ACTOR), {"ok": {"actor": 2}})
        image.reply(ACTOR)
        end.shutdown(1)
        lines.read()
        out, err = server.communicate(timeout=PATIENCE)
        same("the end", (server.returncode, err), (0, b""))
    same("the image behind the end", read(path), file_text(image.file()).encode())
    same("files in the folder", os.listdir(program.folder), ["file"])
    return "2 servers"


def left_alone(program):
    """An image whose journal is there is not served without it, and no script goes on from it: both stay."""
    path = program.at("file")
    before = killed(program, path, CLASS)
    not_begun(program, "without the journal", path, "WriteFault", f"{path}.journal {LEFT}")
    ended = program.script(path, SECOND)
    same("a script", ended, refusal("WriteFault", f"{path}.journal {LEFT}"))
    same("both files", (read(path), read(path + ".journal")), before)
    # Nothing is at `file.new`, since none of these has saved.
    same("files in the folder", sorted(set(os.listdir(program.folder)) - {"file.new"}), ["file", "file.journal"])
    return "2 runs"


def malformed_journals(program):
    """A line that is refused is named by its number, and both files stay. What stands behind the lines is passed over."""
    path = program.at("file")
    image, journal = killed(program, path, CLASS)
    lines = journal.splitlines(keepends=True)[:-1]
    for line, why in (
        (b"{nothing\n", "the line is not JSON"),
        (b'{"nothing":1}\n', "the line is not an entry"),
        (b'{"actor":"Nobody"}\n', "the line is not an entry"),
        (b'{"begun":0}\n', "no such actor"),
        (b'{"ran":[0,1]}\n', "the actor is in no turn"),
        (b'{"name":"size"}\n{"name":"size"}\n', "the name is one already"),
    ):
        program.put("file.journal", b"".join(lines) + line + b"\n")
        number = len(lines) + line.count(b"\n")
        not_journaled(program, repr(line), path, "BadImage", f"{path}.journal: line {number}: {why}")
        same(f"{line!r}: the image", read(path), image)
    for data in (header(b"another"), b'{"journal":1}\n', header(image, 32), b'{"actor":"Object"}\n'):
        program.put("file.journal", data + b"\n")
        not_journaled(program, repr(data), path, "BadImage", f"{path}.journal line 1: {ANOTHER}")
        same(f"{data!r}: both files", (read(path), read(path + ".journal")), (image, data + b"\n"))
    for behind in (b"", b'\n"actor":"Object"}\n', b"\n{\n"):
        program.put("file.journal", journal.removesuffix(b"\n") + behind)
        with journaled(program, path) as (_, end, lines):
            same(f"behind the lines {behind!r}", ask(end, lines, ACTOR), {"ok": {"actor": 0}})
        program.put("file", image)
    return "13 journals"


def save_is_broken_off(program):
    """Where a save is broken off, the image that is there goes on with its journal, whichever of both it is."""
    path = program.at("file")
    image, journal = killed(program, path, CLASS, ACTOR)
    again, _ = recovered(path)
    new = file_text(again.file()).encode()
    behind = header(new) + b'{"actor":"%s"}\n\n' % CLASS["name"].encode()
    for there, old, other, actors in (
        (image, journal, None, 1),
        (image, journal, behind[:-9], 1),
        (image, journal, behind, 1),
        (new, journal, behind, 2),
        (new, behind, None, 2),
    ):
        for name, data in (("file", there), ("file.journal", old), ("file.journal.new", other)):
            with contextlib.suppress(FileNotFoundError):
                os.remove(program.at(name))
            if data is not None:
                program.put(name, data)
        with journaled(program, path) as (_, end, lines):
            same("the next actor", ask(end, lines, ACTOR), {"ok": {"actor": actors}})
    for name, data in (("file", new), ("file.journal", journal), ("file.journal.new", behind[:40])):
        program.put(name, data)
    not_journaled(program, "a journal that was not written whole", path, "BadImage", f"{path}.journal line 1: {ANOTHER}")
    return "6 states"


def saved_meanwhile(program):
    """A save begins the journal anew with what came behind it, and a server saves by itself where the journal is long."""
    path = program.at("file")
    with journaled(program, path, "--sync", "0", "--save-after", "1") as (server, end, lines):
        done(end, lines, CLASS, ACTOR)
        same("a save", list(ask(end, lines, {"cmd": "save"})), ["ok"])
        same("the journal behind it", read(path + ".journal"), header(read(path)) + b"\n")
        done(end, lines, ACTOR)
        first, number = read(path), 0
        source = "a " + 3000 * " " + "^1"
        while read(path) == first and os.path.getsize(path + ".journal") < LONG:
            done(end, lines, {"class": CLASS["name"], "cmd": "method", "source": source})
            number += 1
        ends = time.monotonic() + PATIENCE
        while read(path) == first:
            same("it saves by itself", time.monotonic() < ends, True)
            time.sleep(0.01)
        server.send_signal(signal.SIGKILL)
        server.wait()
    image, _ = recovered(path)
    same("edits", image.classes.edits, number + 1)
    return f"{number} edits"


def one_server(program):
    """The journal of a server is held: no other one begins, by any name of the image."""
    path = program.at("file")
    with journaled(program, path, sessions=2) as (server, end, lines):
        done(end, lines, CLASS)
        not_journaled(program, "a server at the same socket", path, "ReadFault", f"{program.at('socket')} is there already")
        not_journaled(program, "a second server", path, "WriteFault", f"{path}.new {HELD}", "other")
        os.remove(path + ".new")
        not_journaled(program, "a third server", path, "WriteFault", f"{path} {HELD}", "other")
    return "3 servers"


def journal_on_a_full_disk(program):
    """Where the disk is full, a server says once that its journal is not written, and goes on; where there is room again nothing is lost,
    and nothing is there twice. It needs a small disk."""
    with small_disk(program, DISK) as small:
        if small is None:
            return NO_DISK
        path = os.path.join(small, "file")
        with journaled(program, path, "--sync", "20") as (server, end, lines):
            done(end, lines, CLASS)
            with open(os.path.join(small, "filler"), "wb", buffering=0) as filler, contextlib.suppress(OSError):
                while filler.write(bytes(1024)):
                    pass
            for _ in range(300):
                done(end, lines, ACTOR)
            said = server.stderr.readline()
            journal = os.path.realpath(path).encode() + b".journal"
            same("what is said", said, b"actorimage: the journal is not written: " + journal + b": No space left on device\n")
            os.remove(os.path.join(small, "filler"))
            done(end, lines, *[ACTOR] * 10)
            ends = time.monotonic() + PATIENCE
            while len(recovered(path)[0].actors) < 310:
                same("the journal is written", time.monotonic() < ends, True)
                time.sleep(0.02)
            same("what is said then", server.stderr.readline(), b"actorimage: the journal is written again: " + journal + b"\n")
            server.send_signal(signal.SIGKILL)
            server.wait()
        same("actors", len(recovered(path)[0].actors), 310)
    return "1 disk"


TRIALS = (begun_and_ended, left_alone, malformed_journals, save_is_broken_off, saved_meanwhile, one_server, journal_on_a_full_disk)
