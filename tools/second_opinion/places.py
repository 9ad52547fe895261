"""Where sends stand in sources: what the program tells with a fault, beside what the second reader knows.

The program gets image files of actors whose turns end with the next step. The frames of a turn wait for sends, and the last one tests a
value that is no boolean; so all turns together stand at each send and at each conditional jump of the methods. Then it is asked for each
turn, and tells where the send of each frame stands."""

import json
import os
import random
import re
import subprocess
import tempfile
from typing import NamedTuple

from smalltalk.compiler import JUMPS, place_of
from smalltalk.language import BadSource
from trial_parts.patience import PATIENCE

from .classes import Classes, Refused
from .sources import Sources
from .words import ACTING, CALLING, GOOD

METHODS = 2000
SENDS = ("Send", "SuperSend")
# What tests/sources/none.txt names and does not declare are instance variables of the second class.
CLASSES = {"A": ["count", "total"], "Loose": "a b i slots w x y z zork".split()}
# The value of a conditional with two arms is tested.
TWO_ARMS = [
    "m ^(self foo ifTrue: [self bar] ifFalse: [self m1]) and: [self who]",
    "m ^(self foo ifFalse: [self bar] ifTrue: [self m1 foo: 3]) ifTrue: [self who] ifFalse: [self m]",
    "m [self foo ifTrue: [self bar] ifFalse: [self m1]] whileTrue: [self who]",
    "m (self foo ifTrue: [self bar] ifFalse: [^self m1]) ifFalse: [self who]",
]
# It ends turns for which no conditional jump is left.
STUCK = "stuck ^nil missing"
# Methods of an image; frames that wait in a turn, where 127 may; turns that end before they are asked for, since the newest 64 are kept.
OF_AN_IMAGE, WAITING, AT_ONCE = 200, 20, 64
TOOLS = os.path.dirname(os.path.dirname(os.path.realpath(__file__)))
KNOWN = os.path.join(os.path.dirname(TOOLS), "tests", "sources", "none.txt")


def known_sources():
    """Sources without a fault. Those that begin with << are texts in quotes, each perhaps so many times."""
    with open(KNOWN, encoding="ascii") as file:
        lines = [line for line in file.read().split("\n") if line and not line.startswith("#")]
    for line in lines:
        if line.startswith("<<"):
            pieces = re.findall(r'"([^"]*)"(?: \* (\d+))?', line)
            line = "".join(text.encode().decode("unicode_escape") * int(times or 1) for text, times in pieces)
        yield line


class Standing(NamedTuple):
    """A frame of an image file, and the source and the place that are to be told of it."""

    frame: dict
    source: str
    place: object


class Table:
    """A class table. An actor has an object of each class, with which the methods of the class run."""

    def __init__(self):
        self.classes = Classes()
        for name, slots in CLASSES.items():
            self.classes.define(name, "Object", slots)
        self.methods = []
        self.install(STUCK)

    def install(self, source):
        """Whether one of the classes takes the source."""
        for number, name in enumerate(CLASSES):
            try:
                self.methods.append((number, self.classes.install(name, source.encode()), source))
                return True
            except (BadSource, Refused):
                pass
        return False

    def at(self, names, stand):
        """Frames that stand at all instructions of these names. All that a frame has is nil, but for the receiver; `stand` has, for a place
        of a method, the next instruction and the number of operands."""
        for number, method, source in self.methods:
            temps = [None] * (method.arguments + method.temporaries)
            for place, instruction in enumerate(method.code):
                if instruction.name in names:
                    pc, operands = stand(method, place)
                    receiver = {"local": number}
                    part = {"method": method.edit, "operands": [None] * operands, "pc": pc, "receiver": receiver, "temps": temps}
                    yield Standing(part, source, place_of(method.code, place))

    def turns(self):
        """The frames of each turn."""
        waiting, running = list(self.at(SENDS, waits)), list(self.at(JUMPS, runs))
        [stuck] = [it for it in self.at(SENDS, runs) if it.source == STUCK]
        while waiting or running:
            yield waiting[:WAITING] + [running.pop() if running else stuck]
            del waiting[:WAITING]

    def actor(self, turn):
        objects = [{"class": name, "slots": [None] * len(slots)} for name, slots in CLASSES.items()]
        body = {"objects": objects, "phase": {"frames": [it.frame for it in turn]}}
        return {"body": body, "capacity": 1, "class": objects[0]["class"], "last": 0, "open": True, "pending": []}

    def file(self, turns):
        parts = {"actors": [self.actor(turn) for turn in turns], "edits": self.classes.log, "format": 2}
        return {**parts, "names": [], "posts": 0, "senders": [], "steps": 0}


def waits(method, place):
    """A frame that waits has taken its send, with what that takes, and has no answer yet."""
    return place + 1, method.depths[place + 1] - 1


def runs(method, place):
    return place, method.depths[place]


def tables(seed, count):
    """The sources that are known, and then so many random ones that are accepted."""
    rng = random.Random(seed)
    kinds, table = Sources(rng), Table()
    for source in [*known_sources(), *TWO_ARMS, *GOOD, *CALLING, *ACTING]:
        table.install(source)
    while count > 0:
        if len(table.methods) >= OF_AN_IMAGE:
            yield table
            table = Table()
        source = kinds.next("A")
        if table.install(source):
            kinds.keep(source)
            count -= 1
    yield table


def asked(program, table, turns):
    """The replies of a session that runs some turns and asks for them, and so on."""
    lines = []
    for first in range(0, len(turns), AT_ONCE):
        numbers = range(first, min(first + AT_ONCE, len(turns)))
        lines.append({"cmd": "run", "quanta": len(numbers)})
        lines += [{"actor": number, "cmd": "fault", "turn": 0} for number in numbers]
    with tempfile.TemporaryDirectory() as folder:
        path = os.path.join(folder, "image")
        with open(path, "w") as file:
            json.dump(table.file(turns), file)
        given = "".join(json.dumps(line) + "\n" for line in lines).encode()
        try:
            said = subprocess.run([program, "script", "--image", path], input=given, capture_output=True, timeout=PATIENCE).stdout
        except subprocess.TimeoutExpired as it:
            said = it.stdout or b""
    replies = zip(lines, said.decode(errors="replace").split("\n"))
    return {line["actor"]: reply for line, reply in replies if line["cmd"] == "fault"}


def told(reply):
    """The source and the place of each frame; None of another reply."""
    try:
        return [(it["source"], it["offset"]) for it in json.loads(reply)["ok"]["frames"]]
    except (ValueError, LookupError, TypeError):
        return None


def difference(turn, reply):
    """What differs first, in words; None where nothing does."""
    wanted, got = [(it.source, it.place) for it in turn], told(reply)
    if got == wanted:
        return None
    if got is None or len(got) != len(wanted):
        return f"the program tells of {len(wanted)} frames: {reply[:300]}"
    [mine, its] = next(pair for pair in zip(wanted, got) if pair[0] != pair[1])
    return f"where a send stands\n  the second reader: {mine[1]} of {mine[0]!r}\n  the program:       {its[1]} of {its[0]!r}"


def compare_places(program, seed, count):
    """What differs first, in words, or None; and how many sends and conditional jumps were compared."""
    places = 0
    for table in tables(seed, count):
        turns = list(table.turns())
        replies = asked(program, table, turns)
        for number, turn in enumerate(turns):
            what = difference(turn, replies.get(number, "no reply"))
            if what:
                return what, places
            places += len(turn)
    return None, places
