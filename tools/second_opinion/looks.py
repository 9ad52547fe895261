"""Questions at random of the commands that look: about classes, selectors, edits and actors that are there, and about some that are not."""

from smalltalk.language import EDITS_AT_ONCE, KERNEL_CLASSES, KERNEL_SELECTORS, LARGEST_NUMBER

from .words import KEYWORDS, UNARY, long_word

# Mostly the commands that name a class and a selector.
KINDS = (
    "source source source versions versions methods senders senders implementors classes actors actors edits edits inspect inspect"
).split()
# Of so many actors it is asked, at most.
MOST = [1, 1, 2, 3, 8, 60, 4096]
NO_CLASSES = ["Nowhere", "a", "object", "", "A b"]
NO_SELECTORS = ["", "a:b", "3", "+-", "foo bar", "a::", "@"]
# Kernel methods, and some that only few classes have.
OF_KERNEL = sorted({it for selectors in KERNEL_SELECTORS.values() for it in selectors})


class Looks:
    """Asks by the classes of the image as they are."""

    def __init__(self, rng, script):
        self.rng, self.script = rng, script

    def ask(self, class_name=None, selector=None):
        """A question, where they are given often about this class and this selector."""
        kind = self.rng.choice(KINDS)
        if kind == "actors":
            return self.ask_actors()
        if kind == "edits":
            return self.ask_edits()
        if kind == "inspect":
            return self.ask_inspect()
        command = {"cmd": kind}
        if kind in ("methods", "source", "versions"):
            command["class"] = class_name if class_name and self.rng.random() < 0.5 else self.class_name()
        if kind in ("source", "versions", "implementors", "senders"):
            command["selector"] = selector if selector and self.rng.random() < 0.5 else self.selector()
        return self.script.add(command)

    def ask_actors(self):
        """Mostly of all, or of all from one on that is there."""
        kind, count = self.rng.random(), len(self.script.image.actors)
        first = 0 if kind < 0.5 else 2**32 - 1 if kind < 0.51 else self.rng.randrange(count + 2)
        return self.script.add({"cmd": "actors", "from": first, "most": self.rng.choice(MOST)})

    def ask_inspect(self):
        """Mostly of an actor that is there, often of one that is in a turn or has messages."""
        image, kind = self.script.image, self.rng.random()
        number = self.rng.choice(sorted(image.ready)) if kind < 0.5 and image.ready else self.rng.randrange(len(image.actors) + 1)
        return self.script.add({"actor": LARGEST_NUMBER if kind > 0.98 else number, "cmd": "inspect"})

    def ask_edits(self):
        """Often of the last ones, as many as are told at once, one more or none."""
        version = self.script.image.classes.edits
        firsts = [0, version, version - 1, version - EDITS_AT_ONCE, version - EDITS_AT_ONCE - 1, self.rng.randrange(version + 1)]
        firsts += [version + 1, self.rng.choice([LARGEST_NUMBER, LARGEST_NUMBER + 1])]
        return self.script.add({"cmd": "edits", "from": max(0, self.rng.choice(firsts))})

    def ask_all_edits(self):
        """As many at once as are told, up to the last one."""
        for first in range(0, self.script.image.classes.edits + 1, EDITS_AT_ONCE):
            self.script.add({"cmd": "edits", "from": first})

    def class_name(self):
        kind = self.rng.random()
        if kind < 0.05:
            return self.rng.choice(NO_CLASSES)
        table = self.script.image.classes.all
        return self.rng.choice(KERNEL_CLASSES if kind < 0.25 else [one.name for one in table])

    def selector(self):
        """Mostly one that some edit was for, so that it may be removed since."""
        kind = self.rng.random()
        past = self.script.image.classes.past
        if kind < 0.6 and past:
            return self.rng.choice(list(past))[1]
        if kind < 0.75:
            return self.rng.choice(list(self.script.image.classes.names.numbers))
        if kind < 0.85:
            return self.rng.choice(OF_KERNEL)
        if kind < 0.95:
            return self.rng.choice(UNARY + KEYWORDS)
        return self.rng.choice(NO_SELECTORS) if kind < 0.98 else long_word(self.rng)
