"""Lines that were copied from a transcript: what was typed there comes after prompts."""

from .entries import lacks_body

PROMPT, MORE = "> ", "  "
BYTE_ORDER_MARK = "\ufeff"


class Copy:
    """What is typed in lines of a transcript. `text` is the entry so far, and empty where what was printed has begun. At a
    terminal the prompt of a method's body is two blanks; `is_shown` says that such a body was begun."""

    def __init__(self):
        self.text = ""
        self.is_shown = False

    def begin(self, text):
        self.text, self.is_shown = text, False
        return text

    def take(self, line):
        """What a line without a prompt has that was typed; empty if it was printed."""
        if not line.strip():
            self.text = "" if self.is_shown else self.text
            return ""
        if self.text and line.startswith(MORE * 2):
            return self.add(line[len(MORE) :])
        if self.text and line.startswith(MORE) and (self.is_shown or lacks_body(self.text)):
            self.is_shown = True
            return self.add(line)
        self.text = ""
        return ""

    def add(self, line):
        self.text += "\n" + line
        return line


def typed(lines):
    """The lines that were typed, with their numbers. From the first prompt on, they are those after a prompt and those that go
    on with them, behind four blanks or more; what was printed is left out. An empty line comes before each prompt."""
    copy = None
    for number, line in enumerate(lines, 1):
        line = line.removeprefix(BYTE_ORDER_MARK) if number == 1 else line
        if line.startswith(PROMPT) or line == PROMPT.strip():
            copy = copy or Copy()
            yield number, ""
            yield number, copy.begin(line[len(PROMPT) :])
        else:
            yield number, copy.take(line) if copy else line
