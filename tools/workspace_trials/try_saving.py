"""Trials of `:save` and `:restart`, and of images that cannot be written."""

import os
import tempfile

from trial_parts.patience import PATIENCE
from workspace_parts import advice
from workspace_parts.saving import LOST, NOT_KEPT, OF_SERVER

from .pretend import Terminal
from .serving import Server
from .try_common import COUNTER, WORKSPACE, piped, same
from .try_images import NAME, OPTIONS, content, typed
from .try_served import typed as typed_to_server

BUMPED = [*COUNTER, "c := Counter actor", "c start. c bump"]
REFUSED = f"WriteFault: {advice.REFUSALS['WriteFault']}"
ONE = "1 class, 2 methods, 1 actor"


def size(folder, name=NAME):
    """What is said of a file that was written."""
    return f"{name}: {len(content(folder, name)):,} bytes"


def saved(program):
    """The image goes on as it is after it was saved."""
    with tempfile.TemporaryDirectory() as folder:
        stats = ":stats Counter bump"
        lines = [*BUMPED, ":post c bump", stats, ":save two.image", stats, ":run", "c bump", ":turn 2 of c"]
        found, said, status = typed(program, folder, lines)
        told = "send  sends  site  global  walk  state\n+         1     0       0     1  mono"
        wanted = f"""turn 3 of actor 0 waits
{told}
{size(folder, "two.image")}
{told}
1 quantum, 8 steps
turn 3 of actor 0 answers 2
3
turn 2 of actor 0 answers 1"""
        same(found[4:], wanted.split("\n"))
        same((said, status, sorted(os.listdir(folder))), ("", 0, [NAME, "two.image"]))
        for name, number in ((NAME, "4"), ("two.image", "3")):
            found = piped(program, ["c := actor 0", ":run", "c bump"], "--image", name, cwd=folder).stdout.decode()
            same(found.splitlines()[-1], number)


def without_option(program):
    """A workspace that keeps nothing writes an image too, and its own file is gone in the end."""
    with tempfile.TemporaryDirectory() as folder, tempfile.TemporaryDirectory() as other:
        lines = [":save", *BUMPED, ":save two.image", "c bump", ":restart", ":classes"]
        ended = piped(program, lines, cwd=folder, env={**os.environ, "TMPDIR": other})
        printed = [line for line in ended.stdout.decode().splitlines() if not line.startswith("> ")]
        same(printed[0], "write the name of a file after it, as in  :save counter.image")
        same(printed[4:6], [size(folder, "two.image"), "2"])
        empty = "no class was defined yet; define one as in  Counter : Object | count |"
        same(printed[6:], ["a new image, without classes and actors", empty])
        same((os.listdir(folder), os.listdir(other), ended.returncode), (["two.image"], [], 0))


def back(program):
    """`:restart` goes back to what was saved last, also without it."""
    with tempfile.TemporaryDirectory() as folder:
        lines = ["C : Object", ":restart", ":classes", *BUMPED, ":save", "c bump. c bump", ":restart", ":actors"]
        found = typed(program, folder, lines)[0]
        same(found[2], "a new image, without classes and actors")
        rows = ["actor  name  class    turn        waiting", "    0        Counter  answered 1        0"]
        same(found[-3:], [f"{NAME} as it was saved last: {ONE}", *rows])
        same(typed(program, folder, ["c := actor 0", "c bump"])[0][-1], "2")


def no_image_there(program):
    """What is no image is not written over, and an image is not loaded for definitions."""
    with tempfile.TemporaryDirectory() as folder:
        lines = ["C : Object", ":sources c.st", ":save c.st", ":save nofolder/c", ":save two.image", ":load two.image"]
        found = typed(program, folder, lines)[0]
        wanted = f"""c.st: 1 class, 0 methods
c.st is there and is no image, so it stays; take another name
nofolder/c cannot be written (No such file or directory)
{size(folder, "two.image")}
two.image is an image, and no definitions; start a workspace on it with  bin/workspace --image two.image"""
        same(found[2:], wanted.split("\n"))
        same(content(folder, "c.st"), b"C : Object\n")


def not_written(program):
    """Where the program cannot write its file, the image goes on, and at the end nothing is lost but what the file has not."""
    with tempfile.TemporaryDirectory() as folder:
        typed(program, folder, BUMPED)
        before = content(folder)
        os.mkdir(os.path.join(folder, NAME + ".new"))
        lines = ["c := actor 0", "c bump", ":post c bump", ":save", ":save two.image", ":run", "c bump", ":turn 2 of c"]
        found, said, status = typed(program, folder, lines)
        told = ["turn 2 of actor 0 answers 3", "4", "turn 2 of actor 0 answers 3"]
        same(found[2:], ["2", "turn 2 of actor 0 waits", REFUSED, REFUSED, "1 quantum, 8 steps", *told])
        kept = "the classes and methods of this session are in lost1.st, for  :load"
        same((said.splitlines()[-1], status), (f"bin/workspace: {LOST.format(NAME)}; {kept}", 1))
        same(content(folder, "lost1.st").decode().splitlines(), COUNTER)
        same((content(folder), os.path.exists(os.path.join(folder, "two.image"))), (before, False))


def fails_later(program):
    """Where a later save fails, the image goes on, and the next one saves it."""
    with tempfile.TemporaryDirectory() as folder:
        beside = os.path.join(folder, NAME + ".new")
        terminal = Terminal([WORKSPACE, "--program", program, *OPTIONS], folder, folder)
        terminal.see("\n> ")
        for line in [*BUMPED, "c bump"]:
            terminal.ask(line)
        same(terminal.ask(":save"), size(folder) + "\n")
        saved = content(folder)
        # The program holds the file beside it.
        os.remove(beside)
        os.mkdir(beside)
        reason = f"actorimage: the image is not saved: {os.path.realpath(beside)} is there already, and is no file\n"
        for answer in ("3", "4"):
            same(terminal.ask("c bump"), answer + "\n")
            same(terminal.ask(":save"), f"{reason}{REFUSED}\n")
            same(content(folder), saved)
        os.rmdir(beside)
        same(terminal.ask(":save"), size(folder) + "\n")
        same(terminal.ask(":turn 4 of c"), "turn 4 of actor 0 answers 3\n")
        same((terminal.end(), os.path.exists(beside)), (0, False))
        same(typed(program, folder, ["c := actor 0", "c bump"])[0][-1], "5")


def not_written_at_terminal(program):
    """At a terminal an end without the file goes on once more."""
    for is_mended, typed_to_end in ((True, "\x04"), (False, ":quit\n")):
        with tempfile.TemporaryDirectory() as folder:
            beside = os.path.join(folder, NAME + ".new")
            os.mkdir(beside)
            terminal = Terminal([WORKSPACE, "--program", program, *OPTIONS], folder, folder)
            terminal.see("\n> ")
            terminal.ask("C : Object")
            terminal.type(typed_to_end)
            terminal.see(f"{REFUSED}\n{NOT_KEPT.format(NAME)}\n> ")
            same(terminal.ask(":classes"), "C : Object\n")
            if is_mended:
                os.rmdir(beside)
            same((terminal.end(), os.path.isfile(os.path.join(folder, NAME))), (0 if is_mended else 1, is_mended))


def of_server(program):
    """A server saves its image in its own file; a workspace goes on with it, and a server with that of a workspace."""
    with tempfile.TemporaryDirectory() as folder:
        told = served(program, folder, [":save two.image", *BUMPED, ":save"])
        same((told[0], told[-1]), (OF_SERVER, size(folder)))
        found = typed(program, folder, ["c := actor 0", "c bump", ":turn 0 of c"])[0]
        same(found, [f"{NAME}: {ONE}", "actor 0", "2", "turn 0 of actor 0 answers 1"])
        told = served(program, folder, ["c := actor 0", ":turn 0 of c", "c bump", ":actors"])
        same(told[:3], ["actor 0", "turn 0 of actor 0 answers 2", "3"])
        same(told[-1], "    0  c     Counter  answered 3        0")
        new = "Counter >> bump  ^0"
        told = served(program, folder, [new, ":classes", ":methods", ":sources c.st"])
        same(told[:3], ["Counter : Object | count |", "Counter >> start  count := 0", new])
        same(told[3:], ["c.st: 1 class, 2 methods"])


def endless_on_server(program):
    """A turn that goes on in the file goes on in the server, and in the file that it leaves."""
    with tempfile.TemporaryDirectory() as folder:
        typed(program, folder, ["C : Object", "C >> m  [true] whileTrue: [nil]", "c := C actor", ":post c m", ":step"])
        told = served(program, folder, ["c := actor 0", ":turn 0 of c"])
        same(told, ["actor 0", "Pending: turn 0 of actor 0 has not ended; ask again later"])
        same(typed(program, folder, [":step"])[0], [f"{NAME}: 1 class, 1 method, 1 actor, 1 turn to run", "1 quantum, 256 steps"])


def served(program, folder, lines):
    """What a workspace prints in the only session of a server that keeps the image."""
    with Server(program, folder, "--workers", "2", "--sessions", "1", *OPTIONS) as server:
        printed = typed_to_server(folder, lines, "--sender", "7").stdout.decode().splitlines()
        same(server.process.wait(PATIENCE), 0)
    return [line for line in printed if not line.startswith("> ")]


OF_FAILURES = (not_written, fails_later, not_written_at_terminal)
TRIALS = (saved, without_option, back, no_image_there, *OF_FAILURES, of_server, endless_on_server)
