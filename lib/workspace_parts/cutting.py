"""What is typed, cut into entries."""

from dataclasses import dataclass

from .copied import typed
from .entries import begins, lacks_body
from .tokens import begins_comment


@dataclass
class Entry:
    """What was typed, and the number of its first line."""

    text: str
    line: int


def continues(line):
    """Whether a line goes on with the one before."""
    return line.startswith(("  ", "\t"))


class Cutter:
    """Cuts lines into entries. `begun` is the entry so far, and `empty` counts the empty lines after it. A method is `loose` if
    the lines of its body begin without blanks; `held` is a comment that may belong to it."""

    def __init__(self):
        self.begun = self.held = None
        self.empty, self.loose = 0, False

    def begin(self, entry):
        """Begins an entry, and gives those that are over."""
        over = [it for it in (self.begun, self.held) if it]
        self.begun, self.held = entry, None
        self.empty, self.loose = 0, False
        return over

    def take(self, line, number):
        """Takes a line, and gives the entries that are over."""
        last = self.held or self.begun
        if last and begins_comment(last.text):
            last.text += "\n" + line
        elif not line.strip():
            self.empty += 1
        elif last and continues(line):
            self.join_held()
            self.begun.text += "\n" * (self.empty + 1) + line
            self.empty = 0
        elif self.is_loose(line):
            self.take_loose(line, number)
        else:
            return self.begin(Entry(line, number))
        return []

    def is_loose(self, line):
        """Whether a line without blanks before it goes on with a method: it comes at once, and begins nothing else."""
        if not self.begun or self.empty or begins(line):
            return False
        return self.loose or lacks_body(self.begun.text)

    def take_loose(self, line, number):
        if line.startswith('"') and not self.loose:
            self.held = self.held or Entry("", number)
            self.held.text += ("\n" if self.held.text else "") + line
            return
        self.join_held()
        self.begun.text += "\n  " + line
        self.loose = True

    def join_held(self):
        if self.held:
            self.begun.text += "".join("\n  " + line for line in self.held.text.split("\n"))
            self.held = None


def entries(lines):
    """Entries of lines. A line that begins with two spaces or more goes on with the one before, also after empty lines. If a
    method has no body where a line without spaces follows, that and those after it are its body, up to an empty line. A
    comment at the beginning of an entry goes on until it is closed."""
    cutter = Cutter()
    for number, line in typed(lines):
        yield from cutter.take(line, number)
    yield from cutter.begin(None)
