"""A turn that ended with a fault, as a page shows it: the message that failed, and the frames of that moment, each with the send in its
source that failed or was waited for."""

import contextlib

import actorimage
from smalltalk.checks import read_method
from smalltalk.language import BadSource
from workspace_parts import advice

from .exact import a_or_an, exact, message, shown
from .installing import letter_at
from .places import send_at

ANEW = "turns are numbered anew since then, by a checkpoint or another start, and this one is not told of any more"
NO_FAULTS = "this server keeps no places of faults"
NOT_KEPT = "where it was is not known any more: an image keeps the newest 64 faults"
INSTEAD = ("Where turn {:,} failed is not kept any more: an image keeps the newest 64 faults. "
    "This is turn {:,}, the newest of actor {} that is.")
# How often the newest one is asked for, where more come meanwhile than an image keeps.
TRIES = 8


class Failure:
    """The reply to `fault`, told of an actor and a turn."""

    def __init__(self, told, actor, turn, kept, rows):
        self.told, self.actor, self.turn, self.kept, self.rows = told, actor, turn, kept, rows
        self.send = told.get("send")
        self.locals = {it["receiver"]["local"]: it["class"] for it in [*told.get("frames", ()), *filter(None, [self.send])]
            if "local" in kind_of(it["receiver"])}

    def page(self):
        fault, frames = self.told["fault"], self.told.get("frames")
        about = {"actor": self.actor, "class": self.rows.class_of(None, self.actor), "turn": exact(self.turn), "fault": fault}
        about["means"] = advice.explain(fault) or ""
        if frames is None:
            return {**about, "frames": [], "why": NOT_KEPT}
        return {**about, "step": exact(self.told["step"]), "failed": self.failed(),
            "frames": [self.frame(it, it is frames[-1]) for it in frames]}

    def class_of(self, local, number):
        return self.locals.get(local) if number is None else self.rows.class_of(None, number)

    def value(self, it):
        return shown(it, self.class_of)

    def failed(self):
        """The message that failed, with its receiver, or the value that was tested."""
        if self.send is None:
            return f"{self.value(self.told['value'])['text']} was tested"
        return f"{self.receiver()} {message(self.send['selector'], self.send['args'], self.class_of)}"

    def receiver(self):
        if self.send["super"]:
            return "super"
        it = kind_of(self.send["receiver"])
        if "local" in it:
            return a_or_an(self.send["class"])
        return shown(self.send["receiver"])["text"]

    def frame(self, it, is_running):
        """A method that had begun."""
        name, selector, source = it["holder"], it["selector"], it["source"]
        place = None if it["offset"] is None else send_at(source, letter_at(source, it["offset"]))
        return {
            "class": name,
            "selector": selector,
            "version": it["method"] + 1,
            "isNow": self.kept.source(name, selector) == (source, it["method"] + 1),
            "source": source,
            "words": [list(word) for word in place.words] if place else [],
            "waitsFor": place.selector if place and not is_running else "",
            "receiver": self.value(it["receiver"]),
            "of": it["class"],
            "slots": self.named(self.kept.slots(it["class"]), it["slots"]),
            "variables": self.named(variables(source), it["temps"]),
        }

    def named(self, names, values):
        return [{"name": name, "value": self.value(value)} for name, value in zip(names, values)]


def kind_of(value):
    return value if isinstance(value, dict) else {}


def variables(source):
    """The names of a method's arguments and temporaries."""
    try:
        return [it.text for it in read_method(source.encode(errors="replace")).variables()]
    except (BadSource, RecursionError):
        return []


def failure(watched, asked):
    """What is told of a turn that failed; where that is not kept any more, of the newest one of its actor that is, with a word about it.
    `step` is the one at which it did, if that was told: it never comes back, as numbers of turns do."""
    actor, turn = int(asked["actor"]), int(asked["turn"])
    if asked.get("epoch") not in (None, watched.epoch):
        return {"error": "Expired", "said": ANEW}
    try:
        told = watched.line.ask({"cmd": "fault", "actor": actor, "turn": turn})
    except actorimage.BadCommand:
        return {"error": "BadCommand", "said": NO_FAULTS}
    except actorimage.Expired:
        told = None
    if told is not None and is_another(told, asked.get("step")):
        return {"error": "Expired", "said": ANEW}
    if told is None or "frames" not in told:
        newest, of_newest = newest_kept(watched.line, actor)
        if newest is not None:
            found = Failure(of_newest, actor, newest, watched.kept, watched.rows).page()
            return {"ok": {**found, "instead": INSTEAD.format(turn, newest, actor)}}
        if told is None:
            return {"error": "Expired", "said": NOT_KEPT}
    return {"ok": Failure(told, actor, turn, watched.kept, watched.rows).page()}


def is_another(told, step):
    """Whether what is told is of no fault, or of one at another step."""
    return "fault" not in told or step is not None and "step" in told and exact(told["step"]) != step


def newest_kept(line, actor):
    """The newest turn of an actor of which the image keeps how it failed, and what it tells of that; None twice where it keeps none."""
    for _ in range(TRIES):
        turns = [it["turn"] for it in line.ask({"cmd": "faults", "after": 0})["faults"] if it["actor"] == actor]
        if not turns:
            break
        with contextlib.suppress(actorimage.Expired):
            told = line.ask({"cmd": "fault", "actor": actor, "turn": turns[-1]})
            if "frames" in told:
                return turns[-1], told
    return None, None
