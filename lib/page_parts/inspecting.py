"""An actor as a page shows it: its objects, its turn with the frames and the sends that wait, its mailbox, and the ends that are kept."""

import actorimage
from smalltalk.checks import read_method
from smalltalk.compiler import compile_method
from smalltalk.language import BadSource

from .exact import exact, message, shown
from .places import stands_at, waits_at

# Messages of a mailbox and frames of a turn that are told, and the turns whose ends an image keeps.
MOST_MESSAGES, MOST_FRAMES, KEPT = 64, 128, 64


class Inspected:
    """An actor as `inspect` tells of it."""

    def __init__(self, told, number, kept, rows):
        self.told, self.number, self.kept, self.rows = told, number, kept, rows
        self.objects = told["body"]["objects"]

    def class_of(self, local, number):
        if number is not None:
            return self.rows.class_of(None, number)
        return self.objects[local]["class"] if local < len(self.objects) else None

    def value(self, it):
        return shown(it, self.class_of)

    def page(self, place):
        """What is shown, with the variables of the object at a place."""
        place = place if 0 <= place < len(self.objects) else 0
        phase = self.told["body"]["phase"]
        ((kind, of),) = phase.items() if isinstance(phase, dict) else ((phase, None),)
        return {
            "actor": self.number,
            "class": self.told["class"],
            "open": self.told["open"],
            "capacity": self.told["capacity"],
            "objects": len(self.objects),
            "object": place,
            "objectClass": self.objects[place]["class"],
            "variables": self.variables(place),
            "turn": None if self.told["turn"] is None else exact(self.told["turn"]),
            "phase": kind,
            "stands": self.stands(kind, of),
            "frames": [self.frame(it, it is of[-1]) for it in of[-MOST_FRAMES:]] if kind == "frames" else [],
            "waiting": len(self.told["pending"]),
            "pending": [self.pending(it) for it in self.told["pending"][:MOST_MESSAGES]],
        }

    def variables(self, place):
        """The instance variables, inherited ones first."""
        one = self.objects[place]
        names = self.kept.slots(one["class"])
        return [{"name": name, "value": self.value(value)} for name, value in zip(names, one["slots"])]

    def stands(self, kind, of):
        if kind == "start":
            return message(of["selector"], of["args"], self.class_of)
        if kind == "answer":
            return self.value(of)["text"]
        return of if kind == "fault" else ""

    def pending(self, it):
        sender = it["sender"]
        return {
            "message": message(it["selector"], it["args"], self.class_of),
            "from": {"text": f"sender {sender}"} if isinstance(sender, int) else self.value(sender),
            "seq": exact(it["seq"]),
        }

    def frame(self, frame, is_running):
        """A method that has begun, with the place in its source at which it stands."""
        version = frame["method"] + 1
        name, selector, source = self.kept.installs.get(version, ("?", "?", ""))
        names, place = self.read(name, source, frame["pc"], is_running)
        return {
            "class": name,
            "selector": selector,
            "version": version,
            "isNow": self.kept.source(name, selector) == (source, version),
            "source": source,
            "words": [list(it) for it in place.words] if place else [],
            "waitsFor": place.selector if place and not is_running else "",
            "receiver": self.value(frame["receiver"]),
            "variables": [{"name": it, "value": self.value(value)} for it, value in zip(names, frame["temps"])],
            "operands": [self.value(it) for it in frame["operands"]],
        }

    def read(self, name, source, pc, is_running):
        """The names of the variables of a method, and the send at which it stands; none where a file was written by hand and does not
        fit."""
        try:
            method = read_method(source.encode())
            numbers = {it: number for number, it in enumerate(self.kept.classes)}
            code = compile_method(method, self.kept.slots(name), numbers).code
        except (BadSource, RecursionError, AssertionError):
            return [], None
        names = [it.text for it in method.variables()]
        return names, stands_at(source, code, pc) if is_running else waits_at(source, code, pc)


class Ends:
    """How the newest turns of the actor in sight ended. A turn that ended ends no other way, so each is asked for once."""

    def __init__(self, line):
        self.line, self.key, self.told = line, None, {}

    def of(self, number, row, epoch):
        """The ends of the newest turns of an actor, oldest first."""
        if self.key != (number, epoch):
            self.key, self.told = (number, epoch), {}
        ended = row["begun"] - (row["phase"] in ("start", "frames"))
        turns = [it for it in range(max(0, ended - KEPT + 1), ended + 1)] if ended >= 0 and row["phase"] != "fresh" else []
        new = [it for it in turns if it not in self.told]
        commands = [{"cmd": "wait", "actor": number, "epoch": epoch, "ms": 0, "turn": it} for it in new]
        for turn, told in zip(new, self.line.ask_all(commands, 64)):
            if not isinstance(told, actorimage.Refused):
                self.told[turn] = {"fault": told["fault"]} if "fault" in told else {"answer": shown(told["answer"])["text"]}
        self.told = {it: self.told[it] for it in turns if it in self.told}
        return [{"turn": exact(it), **end} for it, end in self.told.items()]
