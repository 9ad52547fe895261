"""A script: lines, the replies to them, and what an image file of it has behind some of its lines."""

from common.compact import compact

QUANTUM, CAPACITY = 256, 64


class Script:
    """Without a quantum or a capacity the program is run without that option."""

    def __init__(self, name, quantum=None, capacity=None):
        self.name, self.quantum, self.capacity = name, quantum, capacity
        self.lines, self.replies, self.looks = [], [], []

    def add(self, line, reply):
        self.lines.append(line)
        self.replies.append(reply)

    def ask(self, command, reply):
        """A command and its reply, both as objects."""
        self.add(compact(command), compact(reply))

    def see(self, look, wanted):
        """What a function of an image answers of the one that the lines up to here make."""
        self.looks.append((len(self.lines), look, wanted))

    def options(self):
        settings = (("--quantum", self.quantum), ("--capacity", self.capacity))
        return [word for name, number in settings if number is not None for word in (name, str(number))]

    def data(self, count=None):
        """The bytes of the lines, or of the first of them."""
        return "".join(line + "\n" for line in self.lines[:count]).encode()
