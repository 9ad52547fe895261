"""Servers of one session, which keep their image in a file, of which one allocation fails."""

import contextlib
import json
import os
import subprocess
import tempfile
import time

from common.sockets import connected
from trial_parts.client import PENDING, await_socket
from trial_parts.patience import PATIENCE

from .shim import Failing

NO_MEMORY = {"error": "NoMemory"}


def told(number, begun, is_open, phase):
    """What is told of an actor that has begun all its messages."""
    counts = {"accepted": begun, "actor": number, "begun": begun}
    return {**counts, "class": "A", "open": is_open, "phase": phase, "running": None}


# Lines, and the replies to them with ample memory. An outcome is asked for until it is there.
LINES = [
    ({"cmd": "define", "name": "A", "slots": [], "super": "Object"}, {"ok": {"version": 1}}),
    ({"class": "A", "cmd": "method", "source": "go ^3 tag"}, {"ok": {"version": 2}}),
    ({"class": "SmallInteger", "cmd": "method", "source": "tag ^1"}, {"ok": {"version": 3}}),
    ({"class": "A", "cmd": "method", "source": "make ^A newActor"}, {"ok": {"version": 4}}),
    ({"class": "A", "cmd": "actor"}, {"ok": {"actor": 0}}),
    ({"actor": 0, "args": [], "cmd": "post", "selector": "go", "sender": 1, "seq": 1}, {"ok": {"turn": 1}}),
    ({"actor": 0, "cmd": "outcome", "turn": 1}, {"ok": {"answer": 1}}),
    ({"actor": 0, "args": [], "cmd": "post", "selector": "make", "sender": 1, "seq": 2}, {"ok": {"turn": 2}}),
    ({"actor": 0, "cmd": "outcome", "turn": 2}, {"ok": {"answer": {"ref": 1}}}),
    ({"class": "A", "cmd": "remove", "selector": "go"}, {"ok": {"version": 5}}),
    ({"cmd": "edits", "from": 4}, {"ok": {"edits": [{"remove": {"class": "A", "selector": "go"}}], "version": 5}}),
    ({"class": "A", "cmd": "replace", "over": 2, "source": "go ^4"}, {"error": "Stale", "version": 0}),
    ({"class": "A", "cmd": "replace", "over": 4, "source": "make ^A newActor"}, {"ok": {"version": 6}}),
    (
        {"class": "A", "cmd": "versions", "selector": "go"},
        {"ok": {"versions": [{"source": "go ^3 tag", "version": 2}, {"removed": True, "version": 5}]}},
    ),
    ({"class": "A", "cmd": "methods"}, {"ok": {"methods": [{"selector": "make", "version": 6}]}}),
    ({"class": "A", "cmd": "source", "selector": "make"}, {"ok": {"class": "A", "source": "make ^A newActor", "version": 6}}),
    ({"cmd": "senders", "selector": "newActor"}, {"ok": {"methods": [{"class": "A", "selector": "make"}]}}),
    ({"class": "A", "cmd": "reparent", "super": "Object"}, {"ok": {"version": 7}}),
    ({"actor": 0, "cmd": "wait", "epoch": "", "ms": 60000, "turn": 2}, {"error": "Expired"}),
    ({"cmd": "save"}, {"ok": {"bytes": 709}}),
    ({"actor": 1, "cmd": "close"}, {"ok": {}}),
    ({"actor": 1, "args": [], "cmd": "post", "selector": "go", "sender": 1, "seq": 3}, {"error": "Closed"}),
    (
        {"cmd": "actors", "from": 0, "most": 2},
        {"ok": {"actors": [told(0, 2, True, {"answer": {"ref": 1}}), told(1, 0, False, "fresh")], "count": 2}},
    ),
]
# A worker that finds no memory rests until a call wakes it; this one is refused, and wakes it.
WAKING = {"class": "Symbol", "cmd": "actor"}


class Ended(Exception):
    """The session has ended before its last line."""


class Client:
    def __init__(self, path):
        try:
            self.socket = connected(path, PATIENCE)
        except OSError:
            # It has ended already.
            raise Ended from None
        self.lines = self.socket.makefile("rb")

    def ask(self, command):
        """The reply to a line; one that found no memory is asked again."""
        try:
            self.socket.sendall(json.dumps(command).encode() + b"\n")
            line = self.lines.readline()
        except OSError:
            line = b""
        if not line.endswith(b"\n"):
            raise Ended
        return json.loads(line)

    def again(self, command):
        reply = self.ask(command)
        return self.ask(command) if reply == NO_MEMORY else reply

    def wait(self, command):
        """The outcome of a turn."""
        ends = time.monotonic() + PATIENCE
        while (reply := self.again(command)) == PENDING and time.monotonic() < ends:
            self.ask(WAKING)
            time.sleep(0.001)
        return reply


def converse(path):
    """How many posts were accepted, whether the session came to its end, and what is wrong with it."""
    posts, client = 0, None
    try:
        client = Client(path)
        for command, wanted in LINES:
            reply = client.wait(command) if command["cmd"] == "outcome" else client.again(command)
            if reply != wanted:
                return posts, True, f"{reply} for {wanted}"
            posts += command["cmd"] == "post" and "ok" in reply
        return posts, True, None
    except Ended:
        return posts, False, None
    finally:
        if client is not None:
            client.lines.close()
            client.socket.close()


def what_is_wrong(process, posts, is_whole, why):
    """What is wrong with the end of a server, or None."""
    try:
        out, said = process.communicate(timeout=PATIENCE)
    except subprocess.TimeoutExpired:
        process.kill()
        process.communicate()
        return "the server does not end"
    if why is not None:
        return why
    if process.returncode == 0:
        # A post may be accepted whose reply finds no memory.
        fits = json.loads(out)["ok"]["posts"] in ([posts] if is_whole else [posts, posts + 1])
        for news in ("image is not saved", "journal is not written"):
            said = said.replace(f"actorimage: the {news}: NoMemory\n", "")
        told = said == ("" if is_whole else "session: NoMemory\n") or is_whole and said == "session: NoMemory\n"
        return None if fits and (told or not is_whole) else f"it told {out!r} and {said!r} for {posts} posts"
    fine = process.returncode in (1, 2) and "emory" in said
    return None if fine else f"it ended with status {process.returncode} and said {said!r}"


def left_wrong(process, folder):
    """What is wrong with the files that a server leaves, or None: it has saved its image if all was well, and no part of it else."""
    names = os.listdir(folder)
    fine = names == ["image"] if process.returncode == 0 else names in ([], ["image"])
    return None if fine else f"it ended with status {process.returncode}, and the folder holds {names}"


def serve(program, failing):
    """What is wrong with a server, or None, and whether its session came to its end."""
    with tempfile.TemporaryDirectory() as folder:
        path = os.path.join(folder, "socket")
        words = [program, "serve", "--socket", path, "--workers", "1", "--sessions", "1", "--image", os.path.join(folder, "image")]
        process = subprocess.Popen(words, stdout=subprocess.PIPE, stderr=subprocess.PIPE, text=True, env=failing.env)
        posts, is_whole, why = converse(path) if await_socket(process, path) else (0, False, None)
        if why is None and not is_whole and process.poll() is None:
            # A session for which there was no memory does not count: the server waits for another.
            with contextlib.suppress(OSError):
                later, _, why = converse(path)
                posts += later
        return what_is_wrong(process, posts, is_whole, why) or left_wrong(process, folder), is_whole


def check(program, shim, every):
    whole, wrong = 0, []
    for failing in Failing.each(shim, "served", every):
        why, is_whole = serve(program, failing)
        whole += is_whole
        if why:
            wrong.append(f"allocation {failing.at}: {why}")
    print(f"servers of one session: {failing.at} allocations, {whole} sessions came to their end; {len(wrong)} were wrong")
    for it in wrong[:10]:
        print(f"  {it}")
    return not wrong
