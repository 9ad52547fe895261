"""An image file in place of the sessions with a server: it answers looks from what it has, and takes no change. Nothing of it runs."""

import threading

import actorimage
from inspect_parts.deep import deeply
from inspect_parts.reading import read_image
from inspect_parts.refused import BadImage
from smalltalk.language import EDITS_AT_ONCE, EDITS_OF_A_RUN, EDITS_OF_A_TABLE, MOST_ITEMS

from .desk import OF_FILE, OnlyLooks
from .journal_beside import journal_beside

SENDS = ("Send", "SuperSend")


def bytes_of(path):
    with open(path, "rb") as file:
        return file.read()


def read(data):
    """The image of a file's bytes; BadImage is raised where they are none."""

    def work():
        try:
            return read_image(data)
        except BadImage as bad:
            return bad

    found = deeply(work)
    if isinstance(found, BadImage):
        raise found
    return found


def refused(name):
    return actorimage.REFUSALS[name](name, {})


def no_faults(_):
    """A file keeps none, and answers as a server does that knows no such command."""
    return refused("BadCommand")


class FileLine:
    """What a session is to the page. `begun` stays: a file is read once. `journal` is what is said of one beside it."""

    looks_only, begun = True, 0

    def __init__(self, path):
        data = bytes_of(path)
        self.path, self.file, self.lock = path, read(data), threading.RLock()
        self.image, self.journal, self.ours = self.file, journal_beside(path, data), set()

    def be_there(self):
        """The file was read."""

    rest = tidy = be_there

    def ask(self, command):
        (told,) = self.ask_all([command])
        if isinstance(told, actorimage.Refused):
            raise told
        return told

    def ask_all(self, commands, window=8):
        return [self.answer(it) for it in commands]

    def answer(self, command):
        answers = {"status": self.status, "edits": self.edits, "actors": self.actors, "inspect": self.inspect, "stats": self.stats,
            "senders": self.senders, "wait": self.wait, "fault": no_faults, "faults": no_faults}
        if command["cmd"] not in answers:
            raise OnlyLooks(OF_FILE)
        return answers[command["cmd"]](command)

    # ---- as docs/PROTOCOL.md has them, behind a load of the file

    def status(self, _):
        edits, names = len(self.file.edits), len(self.file.names.all)
        left = min(EDITS_OF_A_RUN, EDITS_OF_A_TABLE - edits)
        counted = {"posts": self.file.posts, "steps": self.file.steps, "history": 0, "history_most": MOST_ITEMS}
        there = {"actors": len(self.file.actors), "classes": len(self.file.classes.all), "edits": edits, "edits_left": left, "names": names}
        return {**counted, **there, "epoch": "file", "sessions": 0, "workers": 0}

    def edits(self, command):
        return {"edits": self.file.edits[command["from"] : command["from"] + EDITS_AT_ONCE], "version": len(self.file.edits)}

    def actors(self, command):
        first = command["from"]
        rows = [self.row(number) for number in range(first, min(len(self.file.actors), first + command["most"]))]
        return {"actors": rows, "count": len(self.file.actors)}

    def row(self, number):
        """The turn that stands in an actor is turn 0, and what waits are the turns behind it."""
        it = self.file.actors[number]
        phase = it["body"]["phase"]
        frames = phase.get("frames") if isinstance(phase, dict) else None
        method = frames and self.file.classes.methods[frames[-1]["method"]]
        told = next(iter(phase)) if isinstance(phase, dict) and ("frames" in phase or "start" in phase) else phase
        running = method and {"class": method.holder.name, "selector": method.selector}
        return {"accepted": len(it["pending"]), "actor": number, "begun": 0, "class": it["class"], "open": it["open"], "phase": told,
            "running": running or None}

    def inspect(self, command):
        if command["actor"] >= len(self.file.actors):
            return refused("UnknownActor")
        it = self.file.actors[command["actor"]]
        return {**it, "turn": None if it["body"]["phase"] == "fresh" else 0}

    def stats(self, command):
        """A file counts no sends."""
        found = self.file.classes.all.get(command["class"])
        method = found and found.methods.get(command["selector"])
        if not method:
            return refused("NoSuchMethod" if found else "UnknownClass")
        none = {"global": 0, "sends": 0, "site": 0, "state": "empty", "walk": 0}
        return {"sites": [{"selector": it.operand, "super": it.name == "SuperSend", **none} for it in method.code.code if it.name in SENDS]}

    def senders(self, command):
        there = sorted((it for one in self.file.classes.all.values() for it in one.methods.values()), key=lambda it: it.place)
        sends = lambda it: any(each.name in SENDS and each.operand == command["selector"] for each in it.code.code)  # noqa: E731
        return {"methods": [{"class": it.holder.name, "selector": it.selector} for it in there if sends(it)]}

    def wait(self, command):
        phase = self.file.actors[command["actor"]]["body"]["phase"]
        ended = isinstance(phase, dict) and ("answer" in phase or "fault" in phase)
        return phase if command["turn"] == 0 and ended else refused("Expired")
