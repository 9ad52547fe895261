"""The way to a served image: commands go over a Unix socket, and each is answered with one reply."""

import json
import os
import stat

from common.compact import in_given_order
from common.sockets import connected, operator

from .connection import LONGEST_LINE
from .served_file import file_of
from .wrong import Died, Ended

# A server takes no such command, since its workers run the actors. So this reply tells that a server is there.
GREETING = {"cmd": "run"}
ITS_REPLY = {"error": "BadCommand"}
# So long a server may take to greet: what listens may be something else, or accept no more sessions.
SECONDS_TO_GREET = 30


class SocketConnection:
    """A session of a server. `file` is that of the server's image, as far as it is known; at first that is of a server before."""

    def __init__(self, path, file=None):
        self.path, self.file = path, file
        self.socket = self.connect()
        self.replies = self.socket.makefile("rb")
        try:
            self.greet()
            self.file = file_of(self.socket)
        except BaseException:
            self.end()
            raise

    def connect(self):
        try:
            return connected(self.path, name=operator())
        except (FileNotFoundError, ConnectionRefusedError):
            raise Ended(nothing_listens(self.path, self.file)) from None
        except OSError as error:
            raise Ended(f"{self.path} cannot be connected to ({error.strerror or error})") from None

    def greet(self):
        """Finds out whether a server is there that takes one more session."""
        self.socket.settimeout(SECONDS_TO_GREET)
        try:
            reply = self.exchange(GREETING)
        except Ended:
            reply = None
        if reply == {"error": "TooMany", "what": "sessions"}:
            raise Ended(f"the server at {self.path} has as many sessions as it may; try again later")
        if reply != ITS_REPLY:
            raise Ended(f"no server of actorimage replies at {self.path}; write the path of its socket, or wait if it is about to end")
        self.socket.settimeout(None)

    def begin(self):
        """An entry begins."""

    def ask(self, command):
        """The reply to a command."""
        return self.exchange(command) if fits(command) else {"error": "TooLong"}

    def exchange(self, command):
        try:
            self.send(command)
            line = self.replies.readline()
            if not line.endswith(b"\n"):
                raise ValueError
            return json.loads(line)
        except (OSError, ValueError):
            raise Died(f"the connection to {self.path} broke, perhaps since the server has ended") from None

    def send(self, command):
        """A server that is full replies without reading, so its reply is looked for even if this fails."""
        try:
            self.socket.sendall(encoded(command) + b"\n")
        except (BrokenPipeError, ConnectionResetError):
            pass

    def close(self):
        self.end()

    def end(self):
        self.replies.close()
        self.socket.close()


def encoded(command):
    return in_given_order(command).encode(errors="replace")


def fits(command):
    """Whether a command is short enough to be sent."""
    return len(encoded(command)) <= LONGEST_LINE


def nothing_listens(path, file):
    start = f"./actorimage serve --socket {path} --workers 4" + (f" --image {file}" if file else "")
    if os.path.exists(path) and not stat.S_ISSOCK(os.stat(path).st_mode):
        return f"{path} is no socket, and stays; take the path at which a server listens, or another one for a new server"
    if os.path.lexists(path):
        removing = "wait if a server is about to end there, else remove what is there"
        return f"nothing listens at {path}; {removing}, and start a server with  {start}"
    return f"nothing listens at {path}; start a server with  {start}"
