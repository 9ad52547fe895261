"""What a page may ask for: looks, changes, entries of the workspace, and the watch."""

import actorimage

from . import installing, methods
from .completing import AllKnown, complete
from .desk import OF_FILE, ONLY_LOOKS, Desk, Lost, OnlyLooks
from .failure import failure
from .image_file import FileLine
from .typed import NOT_HERE, Typed
from .watch import Watch


class Page:
    """All windows of one image. An answer has `error` and `said` where there is none."""

    def __init__(self, path, looks_only=False, of_file=False):
        file = FileLine(path) if of_file else None
        self.desk, self.only_looks = Desk(path, looks_only, file), OF_FILE if of_file else ONLY_LOOKS
        self.watched = Watch(self.desk, lambda told: Typed(self.desk.typed, told))
        self.typed, self.kept, self.stats = self.watched.typed, self.watched.kept, self.watched.stats
        self.about = {"socket": path, "looksOnly": self.desk.looks_only, "isFile": of_file, "sender": self.typed.sender}
        self.about["beside"] = file.journal if file else ""

    def watch(self, asked):
        return self.watched.stream(asked, self.about)

    def look(self, asked):
        return self.answer(LOOKS, asked)

    def do(self, asked):
        if self.desk.looks_only:
            return {"error": "OnlyLooks", "said": self.only_looks}
        return self.answer(CHANGES, asked)

    def type(self, asked):
        """Takes an entry, or breaks off the one that goes on, and gives back those that have not begun. With --look its commands are
        refused one by one, since some only look."""
        if asked.get("break"):
            return {"ok": self.typed.break_off()}
        self.typed.type(str(asked.get("text", "")))
        return {"ok": True}

    def answer(self, kinds, asked):
        kind = kinds.get(asked.get("what"))
        if kind is None:
            return {"error": "BadCommand", "said": "this page's server knows no such question"}
        try:
            return kind(self, asked)
        except Lost as lost:
            return {"error": "Lost", "said": lost.said(kinds is CHANGES)}
        except OnlyLooks as only:
            return {"error": "OnlyLooks", "said": str(only)}
        except actorimage.Refused as refused:
            return {"error": refused.name, "said": str(refused)}
        except (AttributeError, KeyError, TypeError, ValueError) as error:
            return {"error": "BadCommand", "said": f"this page's server cannot take that: {error!r}"}


def see(page, asked):
    """What a window shows from now on, and what it shows of that at once."""
    page.watched.see(asked["window"], asked["view"])
    view = page.watched.views.get(asked["window"]) or {}
    with page.watched.moved:
        told = page.watched.table(view)
    if view.get("view") == "actors" and view.get("actor") is not None and page.watched.epoch:
        told["inspected"] = page.watched.inspected(view["actor"], view.get("object", 0))
    return {"ok": told}


def method(page, asked):
    page.kept.catch_up()
    return {"ok": methods.method(page.kept, page.stats, asked["class"], asked["selector"], page.watched.ticks, bool(asked.get("own")))}


def senders(page, asked):
    """With the version of the class table of which they are."""
    found, version = methods.senders(page.desk.looks, page.kept, page.stats, asked["selector"], page.watched.ticks)
    if found is None:
        return {"error": "Changing", "said": "edits come faster than senders are told"}
    return {"ok": found, "edits": version}


def implementors(page, asked):
    page.kept.catch_up()
    found, version = methods.implementors(page.kept, asked["selector"])
    return {"ok": found, "edits": version}


def running(page, asked):
    """The actors that run a method now."""
    rows = page.watched.rows
    found = methods.running(rows, asked["class"], asked["selector"])[:200]
    return {"ok": [{"actor": it, "class": rows.class_of(None, it), "turn": rows.row(it)["turns"]} for it in found]}


def gone(page, asked):
    return {"ok": page.kept.gone(asked["class"])}


def faults(page, asked):
    return {"ok": page.watched.faults.told(page.watched.rows)}


def completed(page, asked):
    """What Tab makes of what stands before the cursor."""
    names = page.typed.session.known.names
    return {"ok": complete(AllKnown(dict(names), page.kept, page.watched.rows), str(asked["before"]), NOT_HERE)}


def fault(page, asked):
    """Where a turn failed."""
    page.kept.catch_up()
    return failure(page.watched, asked)


LOOKS = {
    "see": see,
    "method": method,
    "senders": senders,
    "implementors": implementors,
    "running": running,
    "gone": gone,
    "faults": faults,
    "fault": fault,
    "complete": completed,
}


def install(page, asked):
    return installing.install(page.kept, page.desk.changes, asked["class"], asked["source"], asked["seen"])


def remove(page, asked):
    return installing.remove(page.kept, page.desk.changes, asked["class"], asked["selector"], asked["seen"])


def define(page, asked):
    return installing.define(page.kept, page.desk.changes, asked["name"], asked["above"], asked["slots"])


def reparent(page, asked):
    return installing.reparent(page.kept, page.desk.changes, asked["class"], asked["above"])


def plain(command):
    """A change that is one command as it is."""
    return lambda page, asked: installing.told(page.kept, page.desk.changes, command(asked))


CHANGES = {
    "install": install,
    "remove": remove,
    "define": define,
    "reparent": reparent,
    "actor": plain(lambda asked: {"cmd": "actor", "class": asked["class"]}),
    "close": plain(lambda asked: {"cmd": "close", "actor": asked["actor"]}),
    "checkpoint": plain(lambda asked: {"cmd": "checkpoint"}),
    "save": plain(lambda asked: {"cmd": "save"}),
}
