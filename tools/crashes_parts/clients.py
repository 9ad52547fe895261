"""Clients that post, edit, make actors, close and save, until the server is killed under them; each keeps what it was told."""

import contextlib
import json
import random

from trial_parts.client import Client as Session

CLASS = {"cmd": "define", "name": "Account", "slots": ["total", "seen"], "super": "Object"}
METHODS = (
    "add: n total isNil ifTrue: [total := 0]. total := total + n. ^total",
    "spin: n | i | i := 0. [i < n] whileTrue: [i := i + 1]. ^i",
    "tell: other other add: 1. ^7",
    "more ^Account new total",
    "total ^total",
    "fail ^nil nothing",
    "keep: n seen := Account new. seen add: n. ^seen total",
)

REFUSALS = {"UnknownActor", "Closed", "Full", "Old", "TooMany", "HistoryFull"}
# These are refused by NoMemory where the journal is far behind the image: what has not been told waits in memory, and a save is of what was.
BEHIND = ("checkpoint", "save")


class Told:
    """What a client was told before the server was killed: numbers that were accepted, the actors and the edits that there were, the
    actors that were closed, and what it should not have been told."""

    def __init__(self, sender):
        self.sender, self.wrong = sender, []
        self.asked = self.accepted = self.actors = self.edits = 0
        self.closed = set()


class Client:
    def __init__(self, path, told, seed):
        self.path, self.told, self.rng = path, told, random.Random(seed)

    def run(self):
        """Until the server is gone."""
        with contextlib.suppress(OSError, ValueError), Session(self.path) as session:
            while True:
                self.act(session)

    def act(self, session):
        """What was told before the server is gone counts, so each reply is noted as it is read."""
        commands = [self.command() for _ in range(self.rng.choice((1, 1, 1, 8, 40)))]
        session.socket.sendall(b"".join(json.dumps(it).encode() + b"\n" for it in commands))
        for command in commands:
            line = session.lines.readline()
            if not line.endswith(b"\n"):
                raise OSError("the server is gone")
            self.note(command, json.loads(line))

    def command(self):
        kind = self.rng.random()
        if kind < 0.80:
            return self.post()
        if kind < 0.86:
            return {"class": "Account", "cmd": "actor"}
        if kind < 0.92:
            return {"class": "Account", "cmd": "method", "source": f"{self.rng.choice(METHODS[:5])} \"{self.rng.randrange(9)}\""}
        if kind < 0.94:
            return {"actor": self.rng.randrange(1, 40), "cmd": "close"}
        if kind < 0.95:
            return {"class": "Account", "cmd": "method", "source": f"new{self.rng.randrange(60)} ^#fresh{self.rng.randrange(60)}"}
        if kind < 0.96:
            return {"cmd": "checkpoint"}
        if kind < 0.97:
            return {"cmd": "save"}
        return {"cmd": "status"}

    def post(self):
        self.told.asked += 1
        selector, args = self.rng.choice(
            (
                ("add:", [self.rng.randrange(100)]),
                ("spin:", [self.rng.choice((3, 50, 3000))]),
                ("tell:", [{"ref": 0}]),
                ("more", []),
                ("fail", []),
                ("keep:", [self.rng.randrange(9)]),
            )
        )
        actor = self.rng.randrange(40)
        return {"actor": actor, "args": args, "cmd": "post", "selector": selector, "sender": self.told.sender, "seq": self.told.asked}

    def note(self, command, reply):
        if "ok" not in reply:
            is_behind = reply["error"] == "NoMemory" and command["cmd"] in BEHIND
            self.told.wrong += [] if is_behind or reply["error"] in REFUSALS else [(command, reply)]
            return
        if command["cmd"] == "post":
            self.told.accepted = command["seq"]
        elif command["cmd"] == "actor":
            self.told.actors = max(self.told.actors, reply["ok"]["actor"] + 1)
        elif command["cmd"] == "method":
            self.told.edits = max(self.told.edits, reply["ok"]["version"])
        elif command["cmd"] == "close":
            self.told.closed.add(command["actor"])
