"""What the workspace knows of the image: the classes and methods that it defined, the actors that it saw, and the names that
were given."""

import difflib
from dataclasses import dataclass, field

KERNEL = ("Object", "SmallInteger", "True", "False", "UndefinedObject", "Symbol", "ActorRef", "Class")
# So many methods that were written here are looked for behind a new connection.
MOST_WRITTEN = 32


@dataclass
class KnownClass:
    """`methods` has the source of each selector. `parent` is None in Object, and where another session defined the class."""

    name: str
    parent: str
    slots: list
    methods: dict = field(default_factory=dict)

    def written(self):
        """The definition as it is typed."""
        return f"{self.name} : {self.parent}" + (f" | {' '.join(self.slots)} |" if self.slots else "")

    def method_lines(self, form=str):
        """The methods as they are typed, each in a form."""
        return [line for source in self.methods.values() for line in f"{self.name} >> {form(source)}".split("\n")]


@dataclass
class KnownActor:
    """`class_name` is None where the image was not asked for it. `is_own` says that this session has made it, or has posted to it."""

    class_name: str = None
    is_own: bool = field(default=False, compare=False)


@dataclass
class Written:
    """A method that was written here. `before` are the sources in whose place it came, as far as they were shown or written here."""

    version: int
    source: str
    before: set

    def is_in(self, rows):
        """Whether an image has it, by the versions of its class and selector, or had it under its number before others changed it."""
        return any(it.get("source") == self.source and (it["version"] == self.version or it is rows[-1]) for it in rows)


class Known:
    """`versions` has those of the methods that were shown or written last, by the class and the selector; 0 where the class was seen to
    have none of its own. `shown` has their sources, None where there is none. Versions from before a new connection are no longer there.
    `above` has the class under which each class was shown or put last, and `installed` the class, the selector and the source of installs, by
    their places among the edits. `written` has the methods that were written here last, the last one last."""

    def __init__(self):
        self.versions, self.shown, self.above, self.installed = {}, {}, {}, {}
        self.written = {}
        self.classes = {name: KnownClass(name, "Object", []) for name in KERNEL}
        self.classes["Object"].parent = None
        self.actors = {}
        self.names = {}

    def define(self, name, parent, slots):
        self.classes[name] = KnownClass(name, parent, slots)

    def note_classes(self, rows):
        """Takes note of the classes that the image tells of, in their order. What is known besides stays: a server may have begun a new
        image."""
        old, self.classes = self.classes, {}
        for row in rows:
            methods = old[row["name"]].methods if row["name"] in old else {}
            self.classes[row["name"]] = KnownClass(row["name"], row["super"], row["slots"], methods)
        self.classes.update((name, it) for name, it in old.items() if name not in self.classes)

    def move(self, name, parent):
        self.classes[name].parent = parent

    def install(self, name, selector, source):
        """A class that has a method may be one that another session defined."""
        self.classes.setdefault(name, KnownClass(name, None, [])).methods[selector] = source

    def source(self, name, selector):
        """The source of a method of a class's own; empty if none is known."""
        return self.classes[name].methods.get(selector, "") if name in self.classes else ""

    def see_version(self, name, selector, version, source):
        """Takes note of a method that was shown or written, or that there is none."""
        self.versions[name, selector], self.shown[name, selector] = version, source

    def note_written(self, name, selector, version, source):
        """Takes note of a method that was written here."""
        place = name, selector
        old = self.written.pop(place, None)
        before = {self.shown.get(place)} | (old.before if old else set())
        self.see_version(name, selector, version, source)
        self.written[place] = Written(version, source, before)
        if len(self.written) > MOST_WRITTEN:
            del self.written[next(iter(self.written))]

    def note_removed(self, name, selector):
        """Takes note of a method that was removed here."""
        self.see_version(name, selector, 0, None)
        self.written.pop((name, selector), None)

    def note_shown(self, name, selector, found):
        """Takes note of what a class was shown to run, if it is its own."""
        self.see_version(name, selector, 0, None)
        if found and "version" in found:
            self.see_version(found["class"], selector, found["version"], found["source"])

    def begin_again(self):
        """In a new image the numbers of actors, of versions and of edits mean others, and what was shown is found by its source."""
        self.actors, self.versions, self.installed = {}, {}, {}

    def user_classes(self):
        """Those that were defined, each after the class above it, which may have been defined later."""
        ordered = {}
        for name, known in self.classes.items():
            if name not in KERNEL and known.parent:
                above = [it for it in self.chain(name) if it.name not in KERNEL and it.parent]
                ordered.update((it.name, it) for it in reversed(above) if it.name not in ordered)
        return list(ordered.values())

    def chain(self, name):
        """The classes from this one to Object."""
        while name in self.classes:
            yield self.classes[name]
            name = self.classes[name].parent

    def slots(self, name):
        """The instance variables of a class, inherited ones first."""
        return [slot for known in reversed(list(self.chain(name))) for slot in known.slots]

    def selectors(self, name):
        """The selectors of the methods of a class and those above it; of all classes if it is not known."""
        classes = list(self.chain(name)) or list(self.classes.values())
        return sorted({selector for known in classes for selector in known.methods})

    def actor(self, number):
        return self.actors.setdefault(number, KnownActor())

    def is_own(self, number):
        """Whether this session has made the actor, or has posted to it."""
        return number in self.actors and self.actors[number].is_own

    def see(self, value):
        """Takes note of an actor that a value is."""
        if isinstance(value, dict) and "ref" in value:
            self.actor(value["ref"])

    def name_of(self, number):
        """The name of an actor; None if it has none."""
        return next((name for name, value in self.names.items() if value == {"ref": number}), None)


def near(name, names):
    """A question after the nearest of some names; empty if none is near."""
    found = difflib.get_close_matches(name, list(names), 1, 0.6)
    return f"; did you mean {found[0]}?" if found else ""
