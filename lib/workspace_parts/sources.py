"""The place of what is wrong in a source or a statement, under the line that was typed."""

import unicodedata

from . import habits
from .advice import KINDS, REFUSALS
from .known import near
from .statements import MOST_LETTERS
from .tokens import Token, arguments, ends_in_answer, pattern, temporaries, tokens

WIDEST = 76
BEFORE, DOTS = 40, ".."
MOST_BYTES = 4096
TOO_LARGE = {
    "number": "whole numbers go from -2^63 to 2^63 - 1; take a smaller one",
    "keyword": "a message has at most 8 arguments; send two messages",
    "symbol": "a symbol has at most 8 keywords, of 64 letters each; take a shorter one",
    "word": "a method has at most 64 arguments and temporaries; put a part of it into another one",
}


def marked(text, place, sentence, start=0):
    """The line of the place, and below it a mark with the sentence. In the first line, what is before `start` is left out if
    the place is behind it."""
    begin = text.rfind("\n", 0, place) + 1
    if begin == 0 and place >= start:
        begin = start
    end = text.find("\n", place)
    line = text[begin : end if end >= 0 else len(text)]
    blanks = len(line) - len(line.lstrip())
    blanks = min(blanks, place - begin)
    line, at = window(line[blanks:].rstrip(), place - begin - blanks)
    mark = "  " + " " * width(line[:at]) + "^ " + sentence
    return ["  " + line, mark] if line else [mark]


def window(line, at):
    """A part of a long line, and the place in it; control characters, which would move the mark, are blanks in it."""
    line = "".join(character if character.isprintable() else " " for character in line)
    if width(line) <= WIDEST:
        return line, at
    first = max(0, at - BEFORE)
    left = DOTS if first else ""
    part = line[first : first + WIDEST - 2 * len(DOTS)]
    right = DOTS if first + len(part) < len(line) else ""
    return left + part + right, at - first + len(left)


def width(text):
    """How many columns a text takes in a terminal."""
    return sum(0 if unicodedata.combining(it) else 2 if unicodedata.east_asian_width(it) in "WF" else 1 for it in text)


def bad_source(source, kind, offset, variables, classes):
    """The lines for a source that was refused; `offset` counts bytes."""
    place = len(source.encode()[:offset].decode(errors="ignore"))
    found = pattern(source)
    start = 0
    if found and kind != "BadPattern" and source[found[1] :][:1].isspace():
        start = len(source) - len(source[found[1] :].lstrip())
    sentence = Fault(source, kind, place, variables, classes).sentence()
    return marked(source, place, f"{kind}: {sentence}", start)


class Fault:
    """What is wrong at a place of a source."""

    def __init__(self, source, kind, place, variables, classes):
        self.source, self.kind, self.place = source, kind, place
        self.variables, self.classes = variables, classes
        self.before = [token for token in tokens(source[:place]) if token.kind != "end"]
        self.token = tokens(source[place:])[0]
        self.here = self.token.text or source[place : place + 1]

    def sentence(self):
        if self.token.kind == "none" and self.kind in ("BadToken", "BadPattern"):
            return habits.no_token(self.source, self.place + self.token.start)
        if self.kind == "BadCharacter":
            if not self.here.isascii():
                return f"{self.here} is not ASCII, and sources are, in comments too; take it out"
            return habits.no_token(self.source, self.place)
        own = {
            "BadToken": self.bad_token,
            "BadPattern": self.bad_pattern,
            "BlockEscapes": self.block_escapes,
            "TooLarge": self.too_large,
            "UnknownName": self.unknown,
        }.get(self.kind)
        return own() if own else self.general()

    def bad_token(self):
        """What stands here and what is expected; for some faults what is wrong instead."""
        if self.here == "super":
            return "super only receives messages, and no cascade; send it one, or use self"
        if self.in_temporaries():
            return "temporaries are names with a small letter first, between bars"
        if self.before and self.before[-1].text == "return":
            return "there is no return; an answer is written  ^3"
        if self.after_answer():
            return "nothing comes after an answer; take out the ^ or what comes after it"
        token = Token(self.token.kind, self.here, self.place, self.place + len(self.here))
        habit = habits.bar_or_minus(self.source, self.before, token) or habits.pragma(self.source, token)
        return habit or f"{self.stands()} where {self.expected()} is expected"

    def stands(self):
        return f"{self.here} stands" if self.token.kind != "end" else "the method ends"

    def in_temporaries(self):
        bars = sum(token.kind == "|" for token in self.before)
        return bars == 1 and self.here != "|"

    def after_answer(self):
        """Whether the statement before this one, in the same brackets, is an answer."""
        if not self.before or self.before[-1].kind != "." or self.here in (".", ""):
            return False
        return ends_in_answer(self.before[:-1])

    def bad_pattern(self):
        if self.here[:1].isupper():
            return "an argument begins with a small letter; take another name"
        if self.before and self.before[-1].kind in ("keyword", "binary"):
            return self.no_argument(self.before[-1].text)
        if self.token.kind == "symbol" and not self.before:
            return "a pattern has no #; take it out"
        return KINDS["BadPattern"]

    def no_argument(self, keyword):
        if self.token.kind != "end":
            return f"{self.stands()} where the name of an argument is expected"
        return f"the name of an argument is wanted, as in  {keyword} x"

    def too_large(self):
        if len(self.here.rstrip(":")) > MOST_LETTERS and self.token.kind in ("word", "keyword"):
            return "a name has at most 64 letters and digits; take a shorter one"
        if self.place == 0 or len(self.source[: self.place].encode()) == MOST_BYTES:
            return "the method is too long; put a part of it into another one"
        return TOO_LARGE.get(self.token.kind, KINDS["TooLarge"])

    def block_escapes(self):
        return habits.block(self.source, self.before, self.place) or self.general()

    def unknown(self):
        names = [*arguments(self.source), *temporaries(self.source)[0], *self.variables, *self.classes]
        is_class = self.here[:1].isupper()
        sentence = REFUSALS["UnknownClass"].format_map({"class": self.here}) if is_class else self.general()
        return sentence + near(self.here, names)

    def general(self):
        return KINDS[self.kind].format(token=self.here)

    def expected(self):
        """What the grammar goes on with, as far as the token before tells."""
        last = self.before[-1].kind if self.before else "."
        if last in ("binary", "keyword", "assign", "^", "("):
            return "an operand"
        if last == ";":
            return "a message"
        if last in (".", "[", "|"):
            return "a statement"
        return {"(": "a message or )", "[": "a message, a period or ]"}.get(self.open_bracket(), "a message or a period")

    def open_bracket(self):
        """The innermost bracket that is open at the place; None if none is."""
        opened = []
        for token in self.before:
            if token.kind in "([":
                opened.append(token.kind)
            elif token.kind in ")]" and opened:
                opened.pop()
        return opened[-1] if opened else None
