"""A connection to a server that is made anew where it broke, for a person at a terminal."""

from .socket_connection import SocketConnection
from .wrong import Ended, Lost

PERHAPS = "the number {seq} of sender {sender} was used before: perhaps this message was accepted when the connection broke"


class Reconnecting:
    """`tell` takes a sentence on what broke. `begin_again` is called when there is a connection again, asks the image what it has to,
    and gives the lines on that. The first command of an entry is sent once more on the new connection. Later ones are not: they rest
    on what was done on the old one. `file` is that of the last server's image."""

    def __init__(self, path, tell, begin_again):
        self.path, self.tell, self.begin_again = path, tell, begin_again
        self.connection = SocketConnection(path)
        self.file = self.connection.file
        self.is_first = True

    def begin(self):
        """An entry begins."""
        self.is_first = True

    def ask(self, command):
        is_first, self.is_first = self.is_first, False
        if self.connection is None:
            self.connect_again()
            return self.ask_connected(command)
        try:
            return self.connection.ask(command)
        except Ended as ended:
            self.lose()
            if not is_first:
                raise Lost(f"{ended.sentence}; the next entry connects again") from None
            self.tell(ended.sentence)
        self.connect_again()
        return self.ask_once_more(command)

    def look(self, command):
        """The reply to a question while an entry is typed. Where the connection broke, that is left to the next entry."""
        if self.connection is None:
            raise Lost("there is no connection")
        return self.connection.ask(command)

    def ask_connected(self, command):
        try:
            return self.connection.ask(command)
        except Ended as ended:
            self.lose()
            raise Lost(f"{ended.sentence}; the next entry connects again") from None

    def ask_once_more(self, command):
        """The command may have been done before, so that only its reply was lost."""
        reply = self.ask_connected(command)
        if command["cmd"] == "post" and reply.get("error") == "Old":
            raise Lost(PERHAPS.format_map(command) + "; type it again if it was not")
        return reply

    def connect_again(self):
        try:
            self.connection = SocketConnection(self.path, self.file)
        except Ended as ended:
            raise Lost(f"{ended.sentence}; the next entry tries again") from None
        self.file = self.connection.file
        for line in self.begin_again():
            self.tell(line)

    def lose(self):
        self.connection.end()
        self.connection = None

    def close(self):
        self.end()

    def end(self):
        if self.connection:
            self.lose()
