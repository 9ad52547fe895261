"""Servers over a Unix socket, and how many requests a second one answers."""

import contextlib
import json
import os
import subprocess
import sys
import tempfile
import time

from common.sockets import connected

PARTS = os.path.dirname(os.path.realpath(__file__))
MOST_CLIENTS = 64
EDITS = 100
# How long a server may take to start, in seconds.
PATIENCE = 600


class Server:
    """A server over a Unix socket in a folder of its own."""

    name = ""
    # What a client sends, with the client's number (%1$d), its request's (%2$lu) and that of what it is about (%3$lu), and what a
    # refusal holds.
    look = change = ""
    refused: str | None = None

    def __init__(self, command):
        self.folder = tempfile.TemporaryDirectory()
        self.path = os.path.join(self.folder.name, "socket")
        self.process = subprocess.Popen(command(self.path, self.folder.name), stdout=subprocess.DEVNULL)
        self.wait()

    def wait(self):
        until = time.monotonic() + PATIENCE
        while time.monotonic() < until:
            with contextlib.suppress(OSError), connected(self.path):
                return
            time.sleep(0.05)
        sys.exit(f"tools/round_trips_parts: {self.name} does not start")

    def __enter__(self):
        return self

    def __exit__(self, *_):
        self.process.kill()
        self.process.wait()
        self.folder.cleanup()


class Session:
    """A session over a socket: lines out, lines in."""

    def __init__(self, path, name=b""):
        self.socket = connected(path, name=name)
        self.lines = self.socket.makefile("rb")

    def __enter__(self):
        return self

    def __exit__(self, *_):
        self.lines.close()
        self.socket.close()

    def ask(self, **command):
        self.socket.sendall((json.dumps(command) + "\n").encode())
        reply = json.loads(self.lines.readline())
        if "ok" not in reply:
            sys.exit(f"tools/round_trips_parts: {command} is answered {reply}")
        return reply["ok"]

    def times(self, commands):
        """How long commands take to be answered, in milliseconds, sorted."""
        taken = []
        for command in commands:
            time.sleep(0.005)
            began = time.perf_counter()
            self.ask(**command)
            taken.append((time.perf_counter() - began) * 1000)
        return sorted(taken)


def within(folder, options):
    """Options of a program, of which what stands behind `--image` is a name in a folder."""
    return [os.path.join(folder, word) if before == "--image" else word for before, word in zip(("", *options), options)]


class Image(Server):
    name = "actorimage"
    look = '{"actor":%3$lu,"cmd":"outcome","turn":0}\n'
    change = '{"actor":%3$lu,"args":[],"cmd":"post","selector":"bump","sender":%1$d,"seq":%2$lu}\n'
    refused = '"error":"F'

    def __init__(self, program, workers, *options):
        super().__init__(lambda path, folder: [program, "serve", "--socket", path, "--workers", str(workers), *within(folder, options)])
        with Session(self.path) as session:
            session.ask(cmd="define", name="Count", super="Object", slots=["n"])
            session.ask(**{"class": "Count"}, cmd="method", source="bump n isNil ifTrue: [n := 0]. n := n + 1. ^n")
            session.ask(**{"class": "Count"}, cmd="method", source="spin [true] whileTrue: [nil]")
            for _ in range(MOST_CLIENTS):
                session.ask(**{"class": "Count"}, cmd="actor")
        # The place of this session is free again.
        time.sleep(0.2)

    def waited(self):
        """A post and, behind it in the same piece, a wait for its turn, by one client."""
        with Session(self.path) as session:
            epoch = session.ask(cmd="status")["epoch"].replace("%", "%%")
        return self.change + f'{{"actor":%3$lu,"cmd":"wait","epoch":"{epoch}","ms":60000,"turn":%4$lu}}\n'

    def edit_times(self):
        """How long edits take while all workers run."""
        with Session(self.path) as session:
            for number in range(MOST_CLIENTS):
                session.ask(actor=number, args=[], cmd="post", selector="spin", sender=1000, seq=number + 1)
            return session.times({"class": "Count", "cmd": "method", "source": f"other ^{number}"} for number in range(EDITS))


class Redis(Server):
    name = "redis-server"
    look, change = "PING\r\n", "INCR %3$lu\r\n"

    def __init__(self, program, *options):
        super().__init__(lambda path, folder: [program, "--port", "0", "--unixsocket", path, "--save", "", "--dir", folder, *options])


def rate(client, server, text, clients, window, requests):
    """Requests a second."""
    rounds = max(1, requests // (clients * window))
    words = [client, server.path, str(clients), str(window), str(rounds), "1", text]
    said = subprocess.run(words + ([server.refused] if server.refused else []), capture_output=True, text=True)
    if said.returncode != 0:
        sys.exit(f"tools/round_trips_parts: {server.name}: {said.stderr.strip()}")
    seconds, refused = said.stdout.split()
    return clients * window * rounds / float(seconds), int(refused)


def client_in(folder):
    """The program of the clients, compiled in a folder."""
    client = os.path.join(folder, "client")
    subprocess.run(["gcc", "-O2", "-o", client, os.path.join(PARTS, "client.c")], check=True)
    return client
