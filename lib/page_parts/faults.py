"""The turns that ended with a fault, as they come: the image keeps its newest 64. Of an image that keeps none, and of a file, the actors
are told whose last turn ended so."""

from collections import Counter, deque

import actorimage

from .exact import exact

# As many faults as an image keeps; of actors no more are told either, where it keeps none.
KEPT = 64


class Faults:
    """`all` has the newest faults, the oldest first. `count` is how many turns have ended so since the image's base, and None where it
    keeps no faults. `version` grows with each change."""

    def __init__(self, line):
        self.line, self.version = line, 0
        self.clear()

    def clear(self):
        """Turns have other numbers from here on."""
        self.all, self.count, self.after, self.is_first = deque(maxlen=KEPT), None, 0, True
        self.version += 1

    def ask(self, status):
        """What the image tells of the faults that are not known yet; None where there are none."""
        count = status.get("faults")
        if count is None or count == self.count:
            return None
        try:
            told = self.line.ask({"cmd": "faults", "after": self.after})
        except actorimage.BadCommand:
            return None
        if told["steps"] < self.after:
            self.clear()
            told = self.line.ask({"cmd": "faults", "after": 0})
        return {**told, "count": count}

    def take(self, told, rows, now):
        """Takes these, which were seen now. When those came that the first look finds is not known."""
        self.count, self.after = told["count"], told["steps"]
        for it in told["faults"]:
            turn, step, at = exact(it["turn"]), exact(it["step"]), None if self.is_first else now
            name = rows.class_of(None, it["actor"])
            self.all.append({"actor": it["actor"], "class": name, "fault": it["fault"], "turn": turn, "step": step, "at": at})
        self.is_first = False
        self.version += 1

    def told(self, rows):
        """The newest first, with how many there are of each name among them; or the actors, with the names of all."""
        found = of_rows(rows) if self.count is None else list(self.all)[::-1]
        return {"count": self.count, "names": Counter(it["fault"] for it in found), "all": found[:KEPT]}


def of_rows(rows):
    """The actors whose last turn ended with a fault and that are in no other yet."""
    found = [it for it in rows.all if isinstance(it["phase"], dict) and "fault" in it["phase"]]
    return [{"actor": it["actor"], "class": it["class"], "fault": it["phase"]["fault"], "turn": exact(it["begun"])} for it in found]
