"""Values and instructions, as pairs: a kind and what is of that kind, so that 1 and true are never taken for one another."""

from typing import NamedTuple


class Value(NamedTuple):
    """`kind` is integer, boolean, nil, symbol, class, actor or local."""

    kind: str
    content: object = None


NIL = Value("nil")
TRUE = Value("boolean", True)
FALSE = Value("boolean", False)


def boolean(truth):
    return TRUE if truth else FALSE


class Instruction(NamedTuple):
    """`arguments` counts those of a send, and `start` is its place in the source."""

    name: str
    operand: object = None
    arguments: int = 0
    start: int = None
