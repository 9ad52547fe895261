"""A trial on commands that are refused: of all of them together the file has but the names that they brought."""

import json
from itertools import repeat

from .sessions import Cut

CAPACITY = 2


def post(selector, *args, actor=0, sender=1, seq=1):
    return {"actor": actor, "args": args, "cmd": "post", "selector": selector, "sender": sender, "seq": seq}


def method(source, name="A"):
    return {"class": name, "cmd": "method", "source": source}


COMMANDS = (
    {"cmd": "define", "name": "A", "slots": ["s"], "super": "Object"},
    method("a ^1"),
    {"class": "A", "cmd": "actor"},
    # Posts, with new names before and behind what is wrong.
    post("one:", {"sym": "two three"}),
    post("four:five:", {"class": "Nowhere"}, {"sym": "six"}),
    post("seven:", {"sym": "eight"}, actor=9),
    post("nine", 1),
    post("ten:", {"ref": 9}),
    post("eleven:twelve:", {"sym": "a"}, {"sym": "thirteen:"}, seq=0),
    post("14"),
    post("fifteen:", {"local": 0}),
    post("sixteen:", "text"),
    post("seventeen", sender=65536),
    # Sources with new names.
    method("eighteen ^zork"),
    method("nineteen ^#twenty ("),
    method("class ^#more", name="Object"),
    method("further ^1", name="Nowhere"),
    # Others.
    {"cmd": "define", "name": "B", "slots": ["s"], "super": "Nowhere"},
    {"cmd": "define", "name": "A", "slots": [], "super": "Object"},
    {"cmd": "define", "name": "B", "slots": ["s"], "super": "A"},
    {"cmd": "define", "name": "B", "slots": [], "super": "Symbol"},
    {"class": "Symbol", "cmd": "actor"},
    {"class": "Nowhere", "cmd": "actor"},
    {"class": "A", "cmd": "remove", "selector": "other"},
    {"class": "A", "cmd": "remove", "selector": "one:"},
    {"class": "A", "cmd": "reparent", "super": "Nowhere"},
    {"class": "A", "cmd": "reparent", "super": "A"},
    {"class": "Symbol", "cmd": "reparent", "super": "A"},
    {"class": "A", "cmd": "stats", "selector": "other"},
    {"class": "A", "cmd": "stats", "selector": "a"},
    {"actor": 9, "cmd": "close"},
    {"actor": 9, "cmd": "outcome", "turn": 1},
    {"actor": 0, "cmd": "outcome", "turn": 0},
    {"cmd": "run", "quanta": 0},
    {"cmd": "nothing"},
    # A mailbox that is full, and one that is closed.
    post("a"),
    post("a", seq=2),
    post("full:", {"sym": "fuller"}, seq=3),
    post("old:", {"sym": "older"}, seq=2),
    {"actor": 0, "cmd": "close"},
    post("closed:", {"sym": "closer"}, seq=3),
    {"actor": 0, "cmd": "close"},
    {"cmd": "run"},
    {"actor": 0, "cmd": "outcome", "turn": 2},
)


def refused(program):
    """Each command is a session of its own."""
    lines = [json.dumps(command).encode() for command in COMMANDS] + [b"", b"nothing", b"[1]", b'{"cmd":1}']
    sessions = Cut(program, "refused commands", lines, capacity=CAPACITY).sessions(repeat(1))
    return f"{sessions} sessions"


TRIALS = (refused,)
