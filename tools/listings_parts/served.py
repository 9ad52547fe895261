"""Listings of terminals on one served image: workspaces, clients that send lines of the protocol, and programs that are clients."""

import contextlib
import os
import subprocess
import time

from common.sockets import connected
from trial_parts.patience import PATIENCE
from trial_parts.turns import turns
from workspace_trials.person import Person
from workspace_trials.serving import Server

SOCKET = "image.socket"
SERVE = "./actorimage serve "
WORKSPACE, CLIENT, PROGRAM = f"$ bin/workspace --socket {SOCKET}", f"$ nc -U {SOCKET}", "$ python3 "
PAUSE = 0.01
PENDING = '{"error":"Pending"}'


def is_terminal(lines):
    """Whether a block is one of a terminal on a served image."""
    return bool(lines) and (lines[0] in (WORKSPACE, CLIENT) or lines[0].startswith(PROGRAM) and lines[0].endswith(SOCKET))


def options(lines):
    """The options of the server that a block starts, but for its socket; None if it starts none."""
    for line in lines:
        if line.startswith(SERVE):
            words = line[len(SERVE) :].removesuffix(" &").split()
            place = words.index("--socket")
            return words[:place] + words[place + 2 :]
    return None


class Workspace(Person):
    def __init__(self, folder):
        super().__init__(folder, "--socket", SOCKET)
        self.path = os.path.join(folder, SOCKET)

    def answer(self, text):
        self.type(text)
        return self.gives() or []

    def begin(self, text):
        """What an entry gives that may go on; nothing, once it has a turn that goes on."""
        before = turns(self.path)
        self.type(text)
        while (given := self.gives(PAUSE)) is None:
            if turns(self.path) - before:
                return []
        return given


class Client:
    """What a client sends is a line, and each has one reply."""

    def __init__(self, folder):
        self.socket = connected(os.path.join(folder, SOCKET), PATIENCE)
        self.replies = self.socket.makefile("r", encoding="utf-8")

    def answer(self, text):
        self.socket.sendall(text.encode() + b"\n")
        return [self.replies.readline().rstrip()]

    def end(self):
        self.replies.close()
        self.socket.close()
        return 0


def is_pending(lines):
    return bool(lines) and (lines[0].startswith("Pending: ") or lines[0] == PENDING)


def answer(terminal, text, wanted):
    """What an entry gives. One that asks how a turn ended is typed again until it has, if the listing has the end."""
    ends = time.monotonic() + PATIENCE
    while True:
        given = terminal.answer(text)
        if not is_pending(given) or is_pending(wanted) or time.monotonic() > ends:
            return given
        time.sleep(PAUSE)


def answered(program, session, folder):
    """The lines that each listing of a chapter is to have. The terminals stay until the last one was typed into."""
    with Server(program, folder, *session.options, socket=SOCKET) as server:
        with contextlib.ExitStack() as ends:
            for listing in session.listings:
                first = listing.lines[0]
                if first.startswith(PROGRAM):
                    yield listing, [first, *printed(first.removeprefix("$ "), folder)]
                    continue
                terminal = (Workspace if first == WORKSPACE else Client)(folder)
                ends.callback(end, terminal, listing)
                yield listing, [first, *lines(terminal, listing.typed(), "--sessions" in session.options)]
        if "--sessions" in session.options:
            server.process.wait(PATIENCE)


def printed(command, folder):
    """What a program prints that ends by itself."""
    ended = subprocess.run(["bash", "-c", command], capture_output=True, text=True, cwd=folder, timeout=PATIENCE)
    return ended.stdout.splitlines() + ended.stderr.splitlines()


def lines(terminal, typed, are_counted):
    """The last entry of a workspace's listing may go on until another terminal ends it, if nothing stands below it; but not where the server
    counts its sessions."""
    for place, entry in enumerate(typed, 1):
        may_go_on = place == len(typed) and not entry.wanted and isinstance(terminal, Workspace) and not are_counted
        yield from entry.lines
        yield from terminal.begin(entry.text) if may_go_on else answer(terminal, entry.text, entry.wanted)


def end(terminal, listing):
    """Each terminal has to end, so no turn goes on that somebody waits for."""
    status = terminal.end()
    if status:
        raise AssertionError(f"the workspace of the listing at line {listing.first} ends with status {status}")
