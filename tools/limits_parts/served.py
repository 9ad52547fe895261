"""The edits of a server, which all its sessions make together."""

import os
import subprocess

from common.compact import compact
from scripts_parts.commands import actor, answer, define, made, method, outcome, remove
from scripts_parts.running import SECONDS, Ended, Wrong, compare
from trial_parts.client import Client, await_socket

from . import most
from .session import Session, site

SESSIONS = 2
# The dispatch of a turn and its three instructions.
STEPS = 4


class Server:
    """The program as a server that ends behind so many sessions. One script has what all of them ask, in its order."""

    def __init__(self, program, script):
        self.program, self.script, self.asked = program, script, 0
        self.path = os.path.join(os.path.dirname(program.file), "socket")

    def __enter__(self):
        words = ["serve", "--socket", self.path, "--workers", "1", "--sessions", str(SESSIONS)]
        self.process = subprocess.Popen([self.program.path, *words], stdout=subprocess.PIPE, stderr=subprocess.PIPE)
        if not await_socket(self.process, self.path):
            raise Wrong("no socket is made")
        return self

    def __exit__(self, *_):
        self.process.kill()
        self.process.communicate()

    def ask(self, client):
        """Has a client ask what nobody has asked yet."""
        found = client.answers(self.script.lines[self.asked :])
        wanted = "".join(reply + "\n" for reply in self.script.replies[self.asked :]).encode()
        compare(self.script.name, Ended(0, found, b""), Ended(0, wanted, b""))
        self.program.compared += len(self.script.lines) - self.asked
        self.asked = len(self.script.lines)

    def has_ended(self, posts, steps):
        out, said = self.process.communicate(timeout=SECONDS)
        totals = compact({"ok": {"posts": posts, "steps": steps}}) + "\n"
        compare(self.script.name, Ended(self.process.returncode, out, said), Ended(0, totals.encode(), b""))


def edits_in_turn(server, clients):
    """The sessions make edits in turn, as many as a run may have."""
    server.script.edit(define("M"))
    server.script.ask(actor("M"), made(0))
    for number in range(most.EDITS_OF_A_RUN - 1):
        server.script.edit(method("M", f"a ^{number} isNil"))
        server.ask(clients[number % SESSIONS])


def has_no_room(server, client, found):
    """None has room for an edit more. A worker runs a turn meanwhile."""
    script = server.script
    for command in (method("M", "a ^1"), define("N"), remove("M", "a")):
        script.refuses_more(command, "edits")
    script.refuses(define("M"), "ClassExists")
    script.post("a")
    server.ask(client)
    ended = outcome(script.turns[0])
    client.ending(ended)
    script.ask(ended, answer(False))
    script.sites("M", "a", [found])
    server.ask(client)


def edits_of_a_server(program):
    with Server(program, Session("edits_of_a_server")) as server:
        with Client(server.path) as one, Client(server.path) as other:
            edits_in_turn(server, (one, other))
            has_no_room(server, one, site("isNil", walk=1))
            has_no_room(server, other, site("isNil", walk=1, by_site=1))
        server.has_ended(SESSIONS, SESSIONS * STEPS)
    return f"{most.EDITS_OF_A_RUN:,} edits of {SESSIONS} sessions"


TRIALS = (edits_of_a_server,)
