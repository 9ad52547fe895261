"""Where the sends of a source stand. Call sites and the code of a method have them in one order, and this walk has it too."""

from dataclasses import dataclass
from functools import lru_cache

from inspect_parts.deep import deeply
from smalltalk.language import BadSource
from smalltalk.parser import Parser
from smalltalk.tree import Assignment, Block, Cascade, Message, Parenthesis, Send, Symbol, is_inlined, is_super


class Words(str):
    """A selector that knows where its words stand: a start and an end each."""

    def __new__(cls, text, places):
        it = super().__new__(cls, text)
        it.places = places
        return it


class PlacedParser(Parser):
    """The second reader, whose messages know where they stand."""

    def __init__(self, source):
        super().__init__(source)
        for token in self.tokens:
            token.text = Words(token.text, [(token.start, token.stop)])

    def keyword_message(self):
        message, places = Message("", []), []
        for keyword in self.keywords():
            places += keyword.places
            message.selector += keyword
            message.arguments.append(self.binary_expression(("word", "binary")))
        message.selector = Words(message.selector, places)
        return message


@dataclass(frozen=True)
class Place:
    """A send. `posted` is the selector of the message that it posts, where that stands there as a symbol."""

    selector: str
    is_super: bool
    words: tuple
    posted: str = ""


@lru_cache(4_096)
def sends_of(source):
    """The sends of a source; none if it is no method. Thousands of brackets need much room, and are seldom there."""
    if source.count("(") + source.count("[") > 60:
        return deeply(lambda: read(source)) or ()
    return read(source)


def read(source):
    try:
        method = PlacedParser(source.encode(errors="replace")).parse()
    except BadSource:
        return ()
    return tuple(send for statement in method.statements for send in sends_in(statement.value))


def sends_in(tree):
    if isinstance(tree, Parenthesis):
        yield from sends_in(tree.inner)
    elif isinstance(tree, Assignment):
        yield from sends_in(tree.value)
    elif isinstance(tree, Block):
        for statement in tree.statements:
            yield from sends_in(statement.value)
    elif isinstance(tree, Cascade):
        yield from sends_in(tree.receiver)
        for message in tree.messages:
            yield from sends_of_message(message, False)
    elif isinstance(tree, Send):
        yield from sends_in(tree.receiver)
        if is_inlined(tree):
            for argument in tree.message.arguments:
                yield from sends_in(argument)
        else:
            yield from sends_of_message(tree.message, is_super(tree.receiver))


def sends_of_message(message, is_super_send):
    for argument in message.arguments:
        yield from sends_in(argument)
    first = message.arguments[0] if message.arguments else None
    posted = str(first.text) if message.selector.startswith("post:") and isinstance(first, Symbol) else ""
    yield Place(str(message.selector), is_super_send, tuple(message.selector.places), posted)


def send_at(source, letter):
    """The send whose selector begins at a letter; None if none does."""
    return next((it for it in sends_of(source) if it.words[0][0] == letter), None)


def waits_at(source, code, pc):
    """The send at which a frame stands that has taken the instructions before `pc`: the last one of these. None if there is none."""
    number = sum(it.name in ("Send", "SuperSend") for it in code[:pc])
    sends = sends_of(source)
    return sends[number - 1] if 0 < number <= len(sends) else None


def stands_at(source, code, pc):
    """The next send that a running frame comes to, in the order of the code."""
    number = sum(it.name in ("Send", "SuperSend") for it in code[:pc])
    sends = sends_of(source)
    return sends[number] if number < len(sends) else None
