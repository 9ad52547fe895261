"""The tree of a method. Parentheses stay in it: a block in parentheses is inlined nowhere."""

from dataclasses import dataclass, field

from .language import CONDITIONALS, LOOPS


@dataclass
class Name:
    text: str
    start: int


@dataclass
class Number:
    value: int


@dataclass
class Symbol:
    text: str


@dataclass
class Parenthesis:
    inner: object


@dataclass
class Statement:
    value: object
    answers: bool


@dataclass
class Block:
    statements: list
    start: int


@dataclass
class Message:
    """`start` is the place of its selector, of keywords that of the first."""

    selector: str
    arguments: list
    start: int = 0


@dataclass
class Send:
    receiver: object
    message: Message


@dataclass
class Cascade:
    receiver: object
    messages: list


@dataclass
class Assignment:
    name: str
    value: object


@dataclass
class Method:
    """A method, and what its checks ask for: the uses of names, and the places that may break a limit."""

    selector: str = ""
    arguments: list = field(default_factory=list)
    temporaries: list = field(default_factory=list)
    statements: list = field(default_factory=list)
    uses: list = field(default_factory=list)
    assigned: list = field(default_factory=list)
    brackets: list = field(default_factory=list)
    ninth_keywords: list = field(default_factory=list)
    negative: set = field(default_factory=set)
    bare_supers: list = field(default_factory=list)

    def variables(self):
        return self.arguments + self.temporaries


def is_super(tree):
    return isinstance(tree, Name) and tree.text == "super"


def is_inlined(send):
    """Whether a message is one of the eight, with a block for each argument and a receiver that fits."""
    if not all(isinstance(argument, Block) for argument in send.message.arguments):
        return False
    if send.message.selector in LOOPS:
        return isinstance(send.receiver, Block)
    return send.message.selector in CONDITIONALS and not isinstance(send.receiver, Block) and not is_super(send.receiver)
