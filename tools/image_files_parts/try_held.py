"""Trials on the new file beside an image's file: who holds it, and what becomes of it."""

import contextlib
import fcntl
import json
import os
import resource
import stat
import subprocess
import sys
import time

from common.repository import path_of_tool
from inspect_trials.try_common import read
from trial_parts.patience import PATIENCE

from .program import Ended, named, refusal, same
from .try_served import ask, begun, connected, not_begun, serve

FIRST, SECOND = (b'{"cmd":"define","name":"%s","slots":[],"super":"Object"}' % name for name in (b"First", b"Second"))
ENDED = Ended(0, b'{"ok":{"posts":0,"steps":0}}\n', b"")
HELD, NO_FILE = "is held by another process", "is there already, and is no file"
# So many bytes a file may have where a save is to be broken off, and how many servers begin at once.
FEW, TOGETHER = 20, 4


def text_of(program, *lines):
    """What a script of these lines leaves in a file of its own."""
    path = program.at("text")
    same("a script", program.script(path, *lines).status, 0)
    text = read(path)
    os.remove(path)
    return text


def texts(program):
    """A file with one class; its text, and that of a file with one class more."""
    one, two = text_of(program, FIRST), text_of(program, FIRST, SECOND)
    return program.put("file", one), one, two


def edit(end, lines):
    same("an edit", ask(end, lines, json.loads(SECOND)), {"ok": {"version": 2}})


def unsaved(why):
    """The end of a server whose image does not take its file's place."""
    return ENDED._replace(status=1, err=named("WriteFault", why))


def alone(program, *names):
    same("files in the folder", sorted(os.listdir(program.folder)), sorted(names))


@contextlib.contextmanager
def locked(path):
    """A file that another process holds, with a text of its own."""
    with open(path, "w", encoding="ascii") as file:
        fcntl.flock(file, fcntl.LOCK_EX)
        file.write("of another")
        file.flush()
        yield
        same("what another process holds", read(path), b"of another")


def beside_server(program, path, one, two, act):
    """A server on a file, beside which something is done that changes neither the file nor the new one; the server then saves an edit."""

    def talk(number, end, lines):
        act()
        same("the file meanwhile", (read(path), read(path + ".new")), (one, b""))
        alone(program, "file", "file.new", "socket")
        edit(end, lines)

    same("the server", serve(program, path, talk), ENDED)
    same("what is saved", read(path), two)
    alone(program, "file")


def second_server(program):
    """A second server on a file that one has does not begin, and changes nothing; the first one saves."""
    path, one, two = texts(program)

    def begin_two():
        not_begun(program, "beside another", path, "WriteFault", f"{path}.new {HELD}", "another")
        os.symlink("file", program.at("link"))
        not_begun(program, "beside another, by a link", program.at("link"), "WriteFault", f"{path}.new {HELD}", "another")
        os.remove(program.at("link"))

    beside_server(program, path, one, two, begin_two)
    return "2 servers"


def at_once(program):
    """Of servers that begin on one file at once, where none is yet, one serves."""
    path, names = program.at("file"), [f"socket{number}" for number in range(TOGETHER)]
    with contextlib.ExitStack() as stack:
        servers = {stack.enter_context(begun(program, path, name=name)): name for name in names}
        ends = time.monotonic() + PATIENCE
        while len(going := [it for it in servers if it.poll() is None]) > 1 and time.monotonic() < ends:
            time.sleep(0.01)
        same("servers that serve", len(going), 1)
        with connected(going[0], program.at(servers[going[0]])) as end, end.makefile("rb") as lines:
            same("a class", ask(end, lines, json.loads(FIRST)), {"ok": {"version": 1}})
        for server in servers:
            out, err = server.communicate(timeout=PATIENCE)
            wanted = ENDED if server in going else refusal("WriteFault", f"{path}.new {HELD}")
            same("the end of a server", Ended(server.returncode, out, err), wanted)
    alone(program, "file")
    same("what is saved", read(path), text_of(program, FIRST))
    return f"{TOGETHER} servers"


def script_beside(program):
    """A script beside a server gets its replies and is not saved; the server is."""
    path, one, two = texts(program)

    def run_script():
        wanted = Ended(1, b'{"ok":{"version":2}}\n', named("WriteFault", f"{path}.new {HELD}"))
        same("a script", program.script(path, SECOND.replace(b"Second", b"Third")), wanted)

    beside_server(program, path, one, two, run_script)
    return "1 script"


def change_beside(program):
    """A tool that changes image files leaves one that a server has as it is, and the server saves."""
    path, one, two = texts(program)
    words = [sys.executable, path_of_tool("add-variable"), path, "First", "x"]

    def run_tool():
        ended = subprocess.run(words, capture_output=True, timeout=PATIENCE)
        wanted = (1, b"", f"bin/add-variable: {path}: a server or another program has it\n".encode())
        same("a tool", (ended.returncode, ended.stdout, ended.stderr), wanted)

    beside_server(program, path, one, two, run_tool)
    same("the tool afterwards", subprocess.run(words, capture_output=True, timeout=PATIENCE).returncode, 0)
    alone(program, "file")
    return "1 tool"


def of_another(program):
    """What another process holds is not written, neither at the start of a server nor at an end."""
    path, one, two = texts(program)
    why = f"{path}.new {HELD}"
    with locked(path + ".new"):
        not_begun(program, "a file that another process holds", path, "WriteFault", why)
        same("a script", program.script(path, SECOND), Ended(1, b'{"ok":{"version":2}}\n', named("WriteFault", why)))
        alone(program, "file", "file.new")
    same("the file", read(path), one)
    same("a script afterwards", program.script(path, SECOND).status, 0)
    same("what is saved", read(path), two)
    alone(program, "file")
    return "2 programs"


def taken_away(program):
    """A new file that is taken away while a server has it is made again; what stands in its place then is not touched."""
    path, one, two = texts(program)
    beside = path + ".new"

    def taken(number, end, lines):
        edit(end, lines)
        os.remove(beside)

    def replaced(number, end, lines):
        taken(number, end, lines)
        os.mkdir(beside)

    same("the server", serve(program, path, taken), ENDED)
    same("what is saved", read(path), two)
    alone(program, "file")
    program.put("file", one)
    same("a folder in its place: the server", serve(program, path, replaced), unsaved(f"{beside} {NO_FILE}"))
    same("a folder in its place: the file", read(path), one)
    alone(program, "file", "file.new")
    os.rmdir(beside)
    with contextlib.ExitStack() as stack:

        def held(number, end, lines):
            taken(number, end, lines)
            stack.enter_context(locked(beside))

        same("another's in its place: the server", serve(program, path, held), unsaved(f"{beside} {HELD}"))
    same("another's in its place: the file", read(path), one)
    alone(program, "file", "file.new")
    return "3 servers"


def ended(server):
    out, err = server.communicate(timeout=PATIENCE)
    return Ended(server.returncode, out, err)


def killed_server(program):
    """A server that is killed leaves the file as it was and an empty one beside it, with which the next one begins."""
    path, one, two = texts(program)
    with begun(program, path) as server:
        with connected(server, program.at("socket")) as end, end.makefile("rb") as lines:
            edit(end, lines)
    same("the file", (read(path), read(path + ".new")), (one, b""))
    os.remove(program.at("socket"))
    same("the next server", serve(program, path, lambda number, end, lines: edit(end, lines)), ENDED)
    same("what is saved", read(path), two)
    alone(program, "file")
    return "2 servers"


def broken_off(program):
    """A save that is broken off leaves the file as it was. What there is of the text has the rights of the file."""
    path, one, two = texts(program)
    for mode in (0o600, 0o640, 0o666):
        os.chmod(path, mode)

        def limited():
            os.umask(0o022)
            resource.setrlimit(resource.RLIMIT_FSIZE, (FEW, FEW))

        same(f"rights {mode:o}: a script that is killed", program.script(path, SECOND, preexec_fn=limited).status < 0, True)
        same(f"rights {mode:o}: the file", read(path), one)
        same(f"rights {mode:o}: the beginning of the text", read(path + ".new"), two[:FEW])
        same(f"rights {mode:o}: while it is written", f"{stat.S_IMODE(os.stat(path + '.new').st_mode):o}", f"{mode:o}")
    same("the next script", program.script(path, SECOND).status, 0)
    same("what is saved", read(path), two)
    alone(program, "file")
    return "3 scripts"


TRIALS = (second_server, at_once, script_beside, change_beside, of_another, taken_away, killed_server, broken_off)
