"""A client of a server: lines out over its socket, and replies in."""

import json
import time

from common.sockets import connected, listens

from .patience import PATIENCE, PAUSE

PENDING = {"error": "Pending"}


def await_socket(process, path, seconds=PATIENCE):
    """Whether a server comes to listen. Else it has ended before."""
    ends = time.monotonic() + seconds
    while not listens(path):
        if process.poll() is not None or time.monotonic() > ends:
            return False
        time.sleep(PAUSE)
    return True


class Client:
    """A session. `seconds` are the longest that is waited for a reply, or for the end of a turn."""

    def __init__(self, path, seconds=PATIENCE):
        self.seconds = seconds
        self.socket = connected(path, seconds)
        self.lines = self.socket.makefile("rb")

    def __enter__(self):
        return self

    def __exit__(self, *_):
        self.leave()

    def leave(self):
        self.lines.close()
        self.socket.close()

    def answers(self, lines):
        """The bytes of the replies to lines."""
        self.socket.sendall("".join(line + "\n" for line in lines).encode())
        return b"".join(self.lines.readline() for _ in lines)

    def ask(self, command):
        return json.loads(self.answers([json.dumps(command)]))

    def done(self, command):
        """What a command that is not refused answers."""
        reply = self.ask(command)
        assert "ok" in reply, (command, reply)
        return reply["ok"]

    def ending(self, outcome, pause=0.001):
        """The reply to the question how a turn ended, which is asked until it has."""
        ends = time.monotonic() + self.seconds
        while (reply := self.ask(outcome)) == PENDING and time.monotonic() < ends:
            time.sleep(pause)
        return reply
