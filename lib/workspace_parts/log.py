"""What was sent, and what was answered."""

from common.compact import in_given_order


class Log:
    """A connection whose commands and replies are kept."""

    def __init__(self, connection):
        self.connection = connection
        self.lines = []

    def ask(self, command):
        reply = self.connection.ask(command)
        self.lines.append(in_given_order({"sent": command, "answered": reply}))
        return reply
