"""Typed statements: messages to actors, with literals and names as arguments. The grammar is that of docs/LANGUAGE.md without
blocks and answers."""

from dataclasses import dataclass

from . import habits
from .tokens import tokens
from .wrong import Wrong

LEAST, MOST = -(2**63), 2**63 - 1
MOST_LETTERS = 64
MOST_ACTORS = 65_535
LITERALS = {"nil": None, "true": True, "false": False}
ANSWER = "answers stand in methods only; a line that begins with two blanks or a tab goes on with a method"
RESERVED = ("self", "super", "thisActor", *LITERALS)


@dataclass
class Literal:
    value: object


@dataclass
class Name:
    text: str
    place: int


@dataclass
class Actor:
    """An actor by its number."""

    number: int
    place: int


@dataclass
class Message:
    """`text` is what was typed."""

    selector: str
    arguments: list
    text: str


@dataclass
class Send:
    """Messages to one receiver: one, or those of a cascade."""

    receiver: object
    messages: list
    place: int


@dataclass
class Statement:
    """`names` are those that get the value; `text` is what was typed."""

    names: list
    expression: object
    text: str


class Parser:
    def __init__(self, text):
        self.text = text
        self.tokens = tokens(text)
        self.at = 0
        for token in self.tokens:
            if token.kind in ("word", "keyword") and len(token.text.rstrip(":")) > MOST_LETTERS:
                raise Wrong("a name has at most 64 letters and digits; take a shorter one", token.start)

    @property
    def token(self):
        return self.tokens[self.at]

    def take(self):
        self.at += 1
        return self.tokens[self.at - 1]

    def fail(self, expected):
        token = self.token
        if token.kind == "none":
            raise Wrong(habits.no_token(self.text, token.start), token.start)
        if token.kind == "^":
            raise Wrong(ANSWER, token.start)
        if token.kind == "[":
            raise Wrong("blocks stand in methods only; here messages are sent to actors", token.start)
        if token.kind == "|" and (self.at == 0 or self.tokens[self.at - 1].kind == "."):
            raise Wrong("names are not declared here; write  x := 3", token.start)
        habit = habits.bar_or_minus(self.text, self.tokens[: self.at], token)
        if habit:
            raise Wrong(habit, token.start)
        here = "the line ends" if token.kind == "end" else f"{token.text} stands"
        raise Wrong(f"{here} where {expected} is expected", token.start)

    def statements(self):
        found = []
        while True:
            while self.token.kind == ".":
                self.take()
            if self.token.kind == "end":
                return found
            found.append(self.statement())
            if self.token.kind not in (".", "end"):
                self.fail("a message or a period")

    def statement(self):
        start = self.token.start
        names = []
        while self.token.kind == "word" and self.tokens[self.at + 1].kind == "assign":
            names.append(self.assigned())
            self.take()
        expression = self.cascade()
        return Statement(names, expression, self.text[start : self.tokens[self.at - 1].stop])

    def assigned(self):
        name = self.take()
        if name.text in RESERVED or name.text[0].isupper():
            why = "take another name" if name.text in RESERVED else "a name begins with a lower-case letter"
            raise Wrong(f"{name.text} cannot be given a value; {why}", name.start)
        return name.text

    def cascade(self):
        found = self.keywords()
        if self.token.kind == ";" and not isinstance(found, Send):
            self.fail("a message")
        while self.token.kind == ";":
            self.take()
            message = self.message()
            if message is None:
                self.fail("a message")
            found.messages.append(message)
        return found

    def message(self):
        """One message of a cascade; None if none begins here."""
        if self.token.kind == "word":
            return self.unary_message()
        if self.token.kind == "binary":
            return self.binary_message()
        return self.keyword_message()

    def unary_message(self):
        text = self.take().text
        return Message(text, [], text)

    def binary_message(self):
        start, selector = self.token.start, self.take().text
        return self.message_from(start, selector, [self.unaries()])

    def keyword_message(self):
        start, selector, arguments = self.token.start, "", []
        while self.token.kind == "keyword":
            selector += self.take().text
            arguments.append(self.binaries())
        return self.message_from(start, selector, arguments) if selector else None

    def message_from(self, start, selector, arguments):
        return Message(selector, arguments, self.text[start : self.tokens[self.at - 1].stop])

    def keywords(self):
        place = self.token.start
        receiver = self.binaries()
        message = self.keyword_message()
        return Send(receiver, [message], place) if message else receiver

    def binaries(self):
        place = self.token.start
        found = self.unaries()
        while self.token.kind == "binary":
            found = Send(found, [self.binary_message()], place)
        return found

    def unaries(self):
        place = self.token.start
        found = self.primary()
        while self.token.kind == "word":
            found = Send(found, [self.unary_message()], place)
        return found

    def primary(self):
        token, after = self.token, self.tokens[min(self.at + 1, len(self.tokens) - 1)]
        if token.text == "-" and after.kind == "number" and token.stop == after.start:
            self.take()
            return self.number(-1)
        if token.kind == "number":
            return self.number(1)
        if token.kind == "symbol":
            return Literal({"sym": self.take().text[1:]})
        if token.kind == "(":
            return self.in_brackets()
        if token.text == "actor" and after.kind == "number":
            return self.numbered()
        if token.kind != "word":
            self.fail("a name or a value")
        return self.name(self.take())

    def numbered(self):
        place, number = self.take().start, int(self.take().text[:40])
        if number > MOST_ACTORS:
            raise Wrong("actors are numbered from 0 to 65,535", place)
        return Actor(number, place)

    def in_brackets(self):
        self.take()
        found = self.cascade()
        if self.token.kind != ")":
            self.fail("a message or )")
        self.take()
        return found

    def name(self, token):
        if token.text in LITERALS:
            return Literal(LITERALS[token.text])
        if token.text in RESERVED:
            sentence = f"{token.text} has a meaning in methods only; here actors are named, as in c := Counter actor"
            raise Wrong(sentence, token.start)
        return Name(token.text, token.start)

    def number(self, sign):
        token = self.take()
        value = sign * int(token.text[:40])
        if not LEAST <= value <= MOST:
            raise Wrong("whole numbers go from -2^63 to 2^63 - 1", token.start)
        return Literal(value)


def read_statements(text):
    return Parser(text).statements()
