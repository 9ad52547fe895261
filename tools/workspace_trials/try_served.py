"""Trials on a served image: two workspaces at once, numbers of senders, and connections that break."""

import json
import os
import socket
import subprocess
import sys
import tempfile

from trial_parts.patience import PATIENCE, until
from workspace_parts.breaks import Breaks
from workspace_parts.images import ServedImage
from workspace_parts.served_turns import AGAIN, ANEW, HAS_NOT, NEW
from workspace_parts.session import Session
from workspace_parts.socket_connection import SocketConnection
from workspace_parts.terminal import readline

from .pretend import Terminal
from .serving import Server
from .try_common import COUNTER, SPIN, WORKSPACE, piped, same

WORKERS = ("--workers", "2")
COUNT = ["Counter : Object | count |", "Counter >> bump  count isNil ifTrue: [count := 0]. count := count + 1. ^count"]
BROKE = "the connection to socket broke, perhaps since the server has ended"
LOST = "the image does not have Counter >> {} as you wrote {}"
NOTHING = "nothing listens at socket; start a server with  ./actorimage serve --socket socket --workers 4"


def typed(folder, lines, *options):
    """What the workspace prints and says of lines that are piped to it."""
    text = "".join(line + "\n" for line in lines).encode()
    command = [sys.executable, WORKSPACE, "--socket", "socket", *options]
    return subprocess.run(command, input=text, capture_output=True, timeout=PATIENCE, cwd=folder)


def open_piped(folder, lines):
    """A workspace with some lines of its input."""
    pipes = {"stdin": subprocess.PIPE, "stdout": subprocess.PIPE, "stderr": subprocess.PIPE}
    process = subprocess.Popen([sys.executable, WORKSPACE, "--socket", "socket"], cwd=folder, text=True, **pipes)
    process.stdin.write("".join(line + "\n" for line in lines))
    process.stdin.flush()
    return process


def see(process, wanted):
    """Reads up to and with a line."""
    found = []
    while not found or found[-1] != wanted:
        line = process.stdout.readline()
        if not line:
            raise AssertionError(f"{wanted!r} is not printed, but {found!r}, and {process.stderr.read()!r} is said")
        found.append(line.rstrip("\n"))


def sends_of_spin(connection):
    sites = connection.ask({"cmd": "stats", "class": "Spin", "selector": "spin"})
    return sites["ok"]["sites"][0]["sends"]


def two_workspaces(program):
    """One edits a method while the turn of the other's actor is in the middle, many quanta from its begin, and it ends by the new
    method."""
    with tempfile.TemporaryDirectory() as folder, Server(program, folder, *WORKERS) as server:
        with open_piped(folder, [*SPIN, "s spin", ""]) as one:
            one.stdin.close()
            one.stdin = None
            see(one, "> s spin")
            connection = SocketConnection(server.path)
            # A quantum has up to 1,024 steps, and some steps come with each send.
            until(lambda: sends_of_spin(connection) >= 10 * 1024, "the turn does not go on")
            same(connection.ask({"cmd": "outcome", "actor": 0, "turn": 1}), {"error": "Pending"})
            connection.end()
            other = typed(folder, ["Spin >> goOn  ^false", "s := actor 0", "s spin"])
            same((other.stdout.decode().split("\n")[-2], other.returncode), ("7", 0))
            out, err = one.communicate(timeout=PATIENCE)
            same((out, err, one.returncode), ("7\n", "", 0))


def stopped_waiting(program):
    """Ctrl-C stops the waiting, and the turn goes on."""
    with tempfile.TemporaryDirectory() as folder, Server(program, folder, *WORKERS):
        with Watching(folder) as terminal:
            for line in SPIN:
                terminal.ask(line)
            terminal.type("s spin. s goOn\n")
            terminal.see("s so far; Ctrl-C stops the waiting")
            terminal.interrupt()
            terminal.see("turn 1 of actor 0 is not waited for, and goes on in the server;  :turn 1 of actor 0  asks for it\n")
            same(terminal.see("> "), "not sent: s goOn\n> ")
            said = "Pending: turn 1 of actor 0 has not ended; ask again later\n"
            same(terminal.ask(":turn 1 of actor 0"), said)
            terminal.ask("Spin >> goOn  ^false")
            same(terminal.ask("s goOn"), "turn 1 of actor 0 answers 7\nfalse\n")
            same(terminal.end(), 0)


def next_number(program):
    """A workspace that connects again goes on with its sender's numbers."""
    with tempfile.TemporaryDirectory() as folder, Server(program, folder, *WORKERS):
        typed(folder, [*COUNT, "c := Counter actor", "c bump. c bump"], "--sender", "65535")
        found = typed(folder, ["c := actor 0", "c bump", ":log"], "--sender", "65535").stdout.decode().splitlines()
        same(found[3], "3")
        told = [json.loads(line) for line in found[5:]]
        posts = [(it["sent"]["sender"], it["sent"]["seq"], it["answered"]) for it in told if it["sent"]["cmd"] == "post"]
        same(posts, [(65535, 1, {"error": "Old", "last": 2}), (65535, 3, {"ok": {"turn": 3}})])


def same_sender(program):
    """Two workspaces that post under one number, in turn: each goes on behind the other."""
    with tempfile.TemporaryDirectory() as folder, Server(program, folder, *WORKERS) as server:
        told = []
        one, two = (Session(ServedImage(server.path, 7), Breaks(), told.append) for _ in range(2))
        for line in [*COUNT, "c := Counter actor"]:
            one.do(line)
        two.do("c := actor 0")
        for session in (one, two, two, one, one, two):
            session.do("c bump")
        same(told[-6:], ["1", "2", "3", "4", "5", "6"])
        one.close()
        two.close()


def loaded_again(program):
    """A file with many classes is loaded again whole, by a workspace that did not define them; the status tells a refusal."""
    with tempfile.TemporaryDirectory() as folder, Server(program, folder, *WORKERS):
        def loads(*lines):
            with open(os.path.join(folder, "all.st"), "w", encoding="utf-8") as file:
                file.writelines(line + "\n" for line in lines)
            found = typed(folder, [], "all.st")
            return found.stdout.decode().splitlines(), found.returncode

        lines = [line for n in range(25) for line in (f"C{n} : Object | a |", f"C{n} >> m  ^{n}")]
        same(loads(*lines), (["all.st: 25 classes, 25 methods"], 0))
        same(loads(*lines, "D : C0", "D >> m ^a"), (["all.st: 1 class, 26 methods, 25 classes there already"], 0))
        lines = ["E : Object", "E >> m  ^self later: self zork", "E >> later: n  ^n"]
        same(loads(*lines), (["no class has a method zork; E >> m sends it", "all.st: 1 class, 2 methods"], 0))
        said, status = loads("C1 : Object | b |", "C1 >> n  ^(b", "C1 >> m  ^30")
        same(said[:2], ["all.st, line 1:", "C1 : Object | a |  is there already, and stays as it is"])
        same((said[-1], status), ("all.st: 1 method, 1 refused, 1 class there already", 1))
        same(loads("D : Object")[0], ["all.st, line 1:", "D : C0  is there already, and stays as it is", "all.st: 1 class there already"])
        same(typed(folder, ["c := C1 actor", "c m"]).stdout.decode().split("\n")[-2], "30")


def no_server(program):
    """Where nothing listens, or options are for a script."""
    with tempfile.TemporaryDirectory() as folder:
        for options, wanted in (
            ([], NOTHING),
            (["--image", "x"], "--image is for a script; a server at a socket has its own, so leave it out"),
            (["--quantum", "1"], "--quantum is for a script; a server at a socket has its own, so leave it out"),
            (["--capacity", "1"], "--capacity is for a script; a server at a socket has its own, so leave it out"),
            (["--program", program], "--program is for a script; a server at a socket has its own, so leave it out"),
            (["--sender", "65536"], "--sender takes a number from 0 to 65,535"),
        ):
            ended = typed(folder, [], *options)
            same((ended.stdout, ended.stderr.decode(), ended.returncode), (b"", f"bin/workspace: {wanted}\n", 1))
        path = os.path.join(folder, "socket")
        with open(path, "w", encoding="utf-8"):
            pass
        found = typed(folder, []).stderr.decode()
        same(found.startswith("bin/workspace: socket is no socket, and stays; "), True)
        os.remove(path)
        with socket.socket(socket.AF_UNIX) as left:
            left.bind(path)
        found = typed(folder, []).stderr.decode()
        removing = "wait if a server is about to end there, else remove what is there, and start a"
        same(found, "bin/workspace: " + NOTHING.replace("start a", removing) + "\n")
    ended = piped(program, [], "--sender", "1")
    same((ended.stderr, ended.returncode), (b"bin/workspace: --sender is for a server; give it beside --socket PATH\n", 1))


def lost_server(program):
    """A server that ends ends a workspace that reads a pipe."""
    with tempfile.TemporaryDirectory() as folder, Server(program, folder, *WORKERS) as server:
        with open_piped(folder, [*COUNTER, "c := Counter actor", "c start"]) as process:
            see(process, "actor 0")
            server.end()
            out, err = process.communicate("c bump\nc bump\n", timeout=PATIENCE)
            kept = "; the classes and methods of this session are in lost1.st, for  :load"
            same((out.count("bump"), err, process.returncode), (0, f"bin/workspace: {BROKE}{kept}\n", 1))


class Watching:
    """A workspace at a terminal, on a served image."""

    def __init__(self, folder):
        self.folder = folder

    def __enter__(self):
        self.terminal = Terminal([WORKSPACE, "--socket", "socket", "--sender", "7"], self.folder, self.folder)
        self.terminal.see("\n> ")
        return self.terminal

    def __exit__(self, *_):
        self.terminal.kill()


def lost_at_terminal(program):
    """At a terminal the connection is made again by the next entry, which is done on it."""
    with tempfile.TemporaryDirectory() as folder, Server(program, folder, *WORKERS) as server, Watching(folder) as terminal:
        for line in COUNT:
            terminal.ask(line)
        same(terminal.ask("c := Counter actor"), "actor 0\n")
        server.end()
        same(terminal.ask("c bump"), f"{BROKE}\n{NOTHING}; the next entry tries again\n")
        same(terminal.ask("c bump"), f"{NOTHING}; the next entry tries again\n")
        with Server(program, folder, *WORKERS) as server:
            terminal.type("c bump\n")
            terminal.see(f"\n{AGAIN}\n{LOST.format('bump', 'it')}\nUnknownActor: there is no actor 0; :actors lists those there are\n> ")
            same(terminal.ask(COUNT[0]), "class Counter, version 1\n")
            server.end()
        with Server(program, folder, *WORKERS) as server:
            same(terminal.ask(COUNT[0]), f"{BROKE}\n{AGAIN}\n{ANEW}\nclass Counter, version 1\n")
            terminal.ask(COUNT[1])
            terminal.ask("c := Counter actor")
            same(terminal.ask("c bump. c bump"), "2\n")
            terminal.ask("Counter >> spin  [true] whileTrue: [nil]")
            terminal.type("c spin. c bump\n")
            terminal.see("s so far; Ctrl-C stops the waiting")
            server.end()
            terminal.see(f"{BROKE}; the next entry connects again\n")
            same(terminal.see("> "), "not sent: c bump\n> ")
        with Server(program, folder, *WORKERS):
            terminal.type(COUNT[0] + "\n")
            terminal.see(f"{NEW.format(7)}\n{ANEW}\n{LOST.format('bump, Counter >> spin', 'them')}\nclass Counter, version 1\n> ")
            same(terminal.end(), 0)


def told_at_enter(program):
    """What others' messages have failed at is told behind the next entry, and Enter alone is one."""
    with tempfile.TemporaryDirectory() as folder, Server(program, folder, *WORKERS), Watching(folder) as terminal:
        for line in (*COUNT, "c := Counter actor"):
            terminal.ask(line)
        same(typed(folder, ["c := actor 0", "c foo"]).returncode, 0)
        for told in ("actor 0: fault notUnderstood in turn 1\n", ""):
            terminal.type("\n")
            same(terminal.see("> "), f"\n{told}> ")
        same(terminal.end(), 0)


def completed(program):
    """Tab completes what the image has, in a session in which nothing was typed yet, and what is known where no server is."""
    if not readline:
        return
    with tempfile.TemporaryDirectory() as folder, Server(program, folder, *WORKERS) as server:
        typed(folder, [*COUNT, "Counter >> bumpTwice  ^nil", "c := Counter actor", "Counter removeSelector: #bumpTwice"])
        with Watching(folder) as terminal:
            for keys, line in ((":sen\tbu\t", ":senders bump"), (":ref\tCou\t", ":references Counter"), (":ref\tcou\t", ":references count")):
                terminal.type(keys + "\n")
                terminal.see(line + "\n")
                terminal.see("\n> ")
            terminal.type("c := Cou\t ac\t\n")
            terminal.see("c := Counter actor\nactor 1\n> ")
            terminal.type("c bu\t\n")
            terminal.see("c bump\n1\n> ")
            typed(folder, ["Counter >> later  ^7"])
            terminal.type("c la\t\n")
            terminal.see("c later\n7\n> ")
            server.end()
            terminal.type(":actors run\t\n")
            terminal.see(f":actors running\n{BROKE}\n{NOTHING}; the next entry tries again\n> ")
            terminal.type(":actors run\t\n")
            terminal.see(f":actors running\n{NOTHING}; the next entry tries again\n> ")


def older_image(program):
    """A server is started again on the image that was saved last: messages from after it are lost, and that is told."""
    with tempfile.TemporaryDirectory() as folder:
        kept = (*WORKERS, "--image", "image")
        with Server(program, folder, *kept, "--sessions", "1") as server:
            same(typed(folder, [*COUNT, "c := Counter actor", "c bump. c bump"], "--sender", "7").returncode, 0)
            same(server.process.wait(PATIENCE), 0)
        with Server(program, folder, *kept) as server, Watching(folder) as terminal:
            same(terminal.ask("c := actor 0"), "actor 0\n")
            same(terminal.ask("c bump. c bump"), "4\n")
            server.end()
            same(terminal.ask("c bump"), f"{BROKE}\n{NOTHING} --image image; the next entry tries again\n")
            with Server(program, folder, *kept):
                same(terminal.ask("c bump"), f"{HAS_NOT.format(7, 2, 4)}\n{ANEW}\n3\n")
                same(terminal.ask("c bump"), "4\n")
                same(terminal.end(), 0)


def kept_is_not_lost(program):
    """An edit that the image has, or that somebody has changed since, is not told of as lost behind a new connection."""
    with tempfile.TemporaryDirectory() as folder:
        kept = (*WORKERS, "--image", "image")
        with Server(program, folder, *kept) as server, Watching(folder) as terminal:
            for line in COUNT:
                terminal.ask(line)
            terminal.ask("Counter >> stop  ^0")
            terminal.ask(":remove Counter stop")
            terminal.ask("Counter >> stop  ^1")
            terminal.ask("Counter >> other  ^1")
            typed(folder, ["Counter >> other  ^2", ":save"])
            terminal.ask("Counter >> more  ^3")
            terminal.ask(":remove Counter stop")
            server.end()
            with Server(program, folder, *kept):
                terminal.type(COUNT[0] + "\n")
                terminal.see(f"{BROKE}\n{AGAIN}\n{LOST.format('more', 'it')}\nClassExists: ")
                terminal.see("\n> ")
                same(terminal.end(), 0)


def sources_of_session(program):
    """Where nothing listens, `:sources` writes what this session knows; of a new image also what that never had, and of one that it
    knows better what is there now."""
    with tempfile.TemporaryDirectory() as folder, Server(program, folder, *WORKERS) as server, Watching(folder) as terminal:
        terminal.ask("Counter : Object | count |")
        terminal.ask("Counter >> start  count := 0")
        terminal.ask("Counter >> stop  ^nil")
        server.end()
        said = f"{BROKE}\n{NOTHING}; the next entry tries again\n1.st: 1 class, 2 methods that this session knows\n"
        same(terminal.ask(":sources 1.st"), said)
        with Server(program, folder, *WORKERS):
            typed(folder, ["Other : Object", "Counter : Object | count |", "Counter >> stop  ^2", "Counter removeSelector: #stop"])
            terminal.type(":sources 2.st\n")
            terminal.see(f"\n{AGAIN}\n{LOST.format('start, Counter >> stop', 'them')}\n2.st: 2 classes, 1 method, with those of this ")
            same(terminal.see("> "), "session that the image never had\n> ")
            typed(folder, ["Counter >> start  count := 9"])
            same(terminal.ask(":sources 3.st"), "3.st: 2 classes, 1 method\n")
            same(terminal.end(), 0)
        start, stop = "Counter >> start  count := 0", "Counter >> stop  ^nil"
        for name, lines in (
            ("1.st", ["Counter : Object | count |", start, stop]),
            ("2.st", ["Other : Object", "Counter : Object | count |", start]),
            ("3.st", ["Other : Object", "Counter : Object | count |", "Counter >> start  count := 9"]),
        ):
            with open(os.path.join(folder, name), encoding="utf-8") as file:
                same(file.read().splitlines(), lines)


def removed_behind_connection(program):
    """The first entry on a new connection removes no method and moves no class that somebody has changed under the same number."""
    with tempfile.TemporaryDirectory() as folder:
        kept = (*WORKERS, "--image", "image")
        with Server(program, folder, *kept):
            typed(folder, ["Rack : Object", "Crate : Object", "Mill : Object", ":save"])
        for lines, entry, said in (
            (["Mill >> speed  ^2"], "Mill removeSelector: #speed", "version 4: Mill >> speed  ^2"),
            (["Mill : Crate"], "Mill : Rack", "Mill : Crate"),
        ):
            with Server(program, folder, *kept) as server, Watching(folder) as terminal:
                terminal.ask(":classes")
                terminal.ask("Mill >> speed  ^1")
                server.end()
                with Server(program, folder, *kept):
                    typed(folder, lines)
                    terminal.type(entry + "\n")
                    terminal.see(f"{BROKE}\n{AGAIN}\nthe image does not have Mill >> speed as you wrote it\nStale: somebody has ")
                    terminal.see(f"\n{said}\n> ")
                    same("Stale" in terminal.ask(entry), False)
                    same(terminal.end(), 0)


def written_again(program):
    """An edit that an image has lost is told of, and may be typed again at once where what was shown before it is there again."""
    with tempfile.TemporaryDirectory() as folder:
        kept = (*WORKERS, "--image", "image")
        with Server(program, folder, *kept) as server, Watching(folder) as terminal:
            for line in ("Mill : Object", "Mill >> speed  ^1", ":save", "Mill >> speed  ^9", "Mill >> speed  ^10"):
                terminal.ask(line)
            server.end()
            with Server(program, folder, *kept):
                terminal.type("Mill >> speed  ^10\n")
                terminal.see(f"{BROKE}\n{AGAIN}\nthe image does not have Mill >> speed as you wrote it\n> ")
                terminal.type("Mill >> speed\n\n")
                terminal.see("\nMill >> speed  ^10\n")
                terminal.see("\n> ")
                same(terminal.end(), 0)


def told_by_source(program):
    """Behind a new connection versions mean others, so what was shown is found by its source: an edit that somebody has made under the
    same number is not written over unseen, and what is as it was shown, or is not there at all, is written at once."""
    mill = ["Mill : Object", "Mill >> speed  ^1", "Mill >> load  ^2"]
    with tempfile.TemporaryDirectory() as folder:
        kept = (*WORKERS, "--image", "image")
        with Server(program, folder, *kept, "--sessions", "1") as server:
            same(typed(folder, mill).returncode, 0)
            same(server.process.wait(PATIENCE), 0)
        with Server(program, folder, *kept) as server, Watching(folder) as terminal:
            terminal.type(":methods Mill load\n")
            terminal.see("Mill >> load  ^2\n> ")
            terminal.ask("Mill >> stop  ^0")
            terminal.ask("Mill >> speed  ^9")
            server.end()
            with Server(program, folder, *kept):
                typed(folder, ["Mill >> dry  ^3", "Mill >> speed  ^2000"])
                terminal.type("Mill >> speed  ^10\n")
                lost = "the image does not have Mill >> stop, Mill >> speed as you wrote them"
                terminal.see(f"{BROKE}\n{AGAIN}\n{lost}")
                terminal.see("\nStale: somebody has changed this method since it was shown or written here, and nothing is written; ")
                terminal.see("\nversion 5: Mill >> speed  ^2000\n> ")
                same(typed(folder, ["m := Mill actor", "m speed"]).stdout.decode().splitlines()[-1], "2000")
                same(terminal.ask("Mill >> load  ^4"), "")
                same(terminal.ask("Mill >> stop  ^5"), "")
                same(terminal.ask("Mill >> speed  ^10"), "")
                same(typed(folder, ["m := actor 0", "m speed"]).stdout.decode().splitlines()[-1], "10")
                same(terminal.end(), 0)


TRIALS = (
    two_workspaces, stopped_waiting, next_number, same_sender, loaded_again, no_server, lost_server, lost_at_terminal, told_at_enter, completed,
    older_image, kept_is_not_lost, sources_of_session, removed_behind_connection, written_again,
    told_by_source,
)
