"""The classes and methods of the image, kept by its edits: each is asked for once, and never changes."""

import threading
import time
from dataclasses import dataclass, field

from smalltalk.language import KERNEL_CLASSES, KERNEL_SELECTORS
from workspace_parts.tokens import pattern

# Times of so many edits are kept; the image keeps none.
MOST_SEEN = 512


@dataclass
class Class:
    """`slots` are its own. `methods` has the version of each method of its own, by the selector."""

    name: str
    above: str
    slots: list
    methods: dict = field(default_factory=dict)

    @property
    def is_kernel(self):
        return self.name in KERNEL_CLASSES

    def row(self):
        """What a page is told of it."""
        return {
            "name": self.name,
            "above": self.above,
            "slots": self.slots,
            "methods": list(self.methods.items()),
            "kernel": list(KERNEL_SELECTORS.get(self.name, ())),
            "isKernel": self.is_kernel,
        }


@dataclass(frozen=True)
class Seen:
    """An edit that came while the page looked: what it was, and when it was seen."""

    version: int
    what: str
    class_name: str
    selector: str
    at: float


class Kept:
    """The class table as the edits up to `version` leave it. `anew` counts how often another image was begun; `installs` has the class,
    the selector and the source of each install, by its version."""

    def __init__(self, line):
        self.line, self.anew, self.connection, self.epoch = line, 0, None, None
        # One thread asks for edits at a time, and what is kept changes under a lock that is held for no question.
        self.asking, self.lock = threading.RLock(), threading.RLock()
        self.begin()

    def begin(self):
        self.version, self.installs, self.history, self.seen, self.is_first = 0, {}, {}, [], True
        self.anew += 1
        # Another image has other versions.
        self.line.ours.clear()
        self.classes = {name: Class(name, "Object", []) for name in KERNEL_CLASSES}
        self.classes["Object"].above = None

    def catch_up(self, epoch=None):
        """Asks for the edits that are not known. Behind a lost connection the image may be another one, unless its epoch is as it was."""
        with self.asking:
            if epoch is not None:
                if self.connection not in (None, self.line.begun) and epoch != self.epoch:
                    with self.lock:
                        self.begin()
                self.connection, self.epoch = self.line.begun, epoch
            while True:
                told = self.line.ask({"cmd": "edits", "from": self.version})
                with self.lock:
                    for edit in told["edits"]:
                        self.take(edit, None if self.is_first else time.time())
                if self.version >= told["version"]:
                    break
            self.is_first = False

    def take(self, edit, now):
        """An edit as image files have it; `now` is None for those that were there before."""
        self.version += 1
        ((kind, of),) = edit.items()
        name, selector = of.get("class") or of["name"], of.get("selector", "")
        if kind == "define":
            self.classes[name] = Class(name, of["super"], of["slots"])
        elif kind == "install":
            selector = (pattern(of["source"]) or ("", 0))[0]
            self.classes[name].methods[selector] = self.version
            self.installs[self.version] = name, selector, of["source"]
        elif kind == "remove":
            self.classes[name].methods.pop(selector, None)
        else:
            self.classes[name].above = of["super"]
        if selector:
            self.history.setdefault((name, selector), []).append((self.version, of.get("source")))
        if now is not None:
            self.seen = [*self.seen[-MOST_SEEN:], Seen(self.version, kind, name, selector, now)]

    # ---- what is asked of it

    def chain(self, name):
        """The classes from this one up to Object."""
        while name in self.classes:
            yield self.classes[name]
            name = self.classes[name].above

    def slots(self, name):
        """The instance variables of an object of the class, inherited ones first."""
        return [slot for it in reversed(list(self.chain(name))) for slot in it.slots]

    def found(self, name, selector):
        """The class that has what a send of the selector to an object of the class runs; None if none up the chain has one."""
        return next((it for it in self.chain(name) if has(it, selector)), None)

    def implementors(self, selector):
        return [it.name for it in list(self.classes.values()) if has(it, selector)]

    def source(self, name, selector):
        """The source and the version of a class's own method; None if it has none, or the kernel's."""
        version = self.classes[name].methods.get(selector) if name in self.classes else None
        return version and (self.installs[version][2], version)

    def methods(self):
        """All installed methods, as the class and the selector of each."""
        return [(it.name, selector) for it in list(self.classes.values()) for selector in list(it.methods)]

    def gone(self, name):
        """The selectors of methods that the class had of its own and has no more."""
        own = self.classes[name].methods if name in self.classes else {}
        return sorted(selector for holder, selector in list(self.history) if holder == name and selector not in own)


def has(it, selector):
    return selector in it.methods or selector in KERNEL_SELECTORS.get(it.name, ())
