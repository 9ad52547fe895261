"""A session of a server for whose replies nobody waits: a signal is to be heard at once, also where the server does not answer."""

import contextlib
import json
import select

from common import sockets

MOST = 1 << 16


class Ended(Exception):
    """The server has ended the session, or sent what is no reply."""


class Session:
    """A session on the operator's place. `asked` is the command whose reply is to come."""

    def __init__(self, path):
        self.end = sockets.connected(path, 0, sockets.operator(sockets.SUPERVISOR))
        self.server = sockets.process_of(self.end)
        self.asked, self.come = None, b""

    def leave(self):
        self.end.close()

    def ask(self, command):
        self.asked = command
        # A server that does not take it may have said why, which is read then.
        with contextlib.suppress(BrokenPipeError):
            self.end.sendall(json.dumps({"cmd": command}).encode() + b"\n")

    def reply(self, seconds):
        """The command that was asked and its reply, if that comes in so many seconds; else None."""
        if not select.select([self.end], [], [], seconds)[0]:
            return None
        piece = self.end.recv(MOST)
        if not piece:
            raise Ended("the session has ended")
        line, newline, rest = (self.come + piece).partition(b"\n")
        if not newline:
            self.come = line
            return None
        asked, self.asked, self.come = self.asked, None, rest
        return asked, json.loads(line)
