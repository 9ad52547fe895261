"""Installs at random that are to replace a certain version."""

from smalltalk.language import LARGEST_NUMBER

OF_KERNEL = [
    ("Object", "== x ^x"),
    ("Object", "isNil ^zork"),
    ("Object", "doesNotUnderstand: s ^s"),
    ("SmallInteger", "+ x ^zork"),
    ("True", "not ^self"),
    ("ActorRef", "post: a with: b ^a"),
    ("Class", "newActor ^zork"),
]
# What is no method by itself, and what names something that is not there.
UNREAD = ["foo ^(", "3", "", "foo @", "bar ^[3]"]
UNRESOLVED = ["foo ^zork", "bar zork := 1", "foo: x ^Nowhere", "= x ^x zork: zork"]
CLASSES = "A A B C Object Symbol Nowhere Nowhere Nowhere".split()


class Replaces:
    def __init__(self, rng, script):
        self.rng, self.script = rng, script

    def over(self):
        """Mostly nothing, where whatever is there is replaced. Else often the version of some edit of a method."""
        kind, table = self.rng.random(), self.script.image.classes
        if kind < 0.6:
            return None
        if kind < 0.75 or not table.past:
            return 0
        return self.version(self.rng.choice(list(table.past))) if kind < 0.95 else self.far()

    def version(self, place):
        """One of those that a class had for a selector, or that a removal made there."""
        return self.rng.choice(self.script.image.classes.past[place])[0]

    def far(self):
        """A number that no method has."""
        return self.rng.choice([self.script.image.classes.edits + 1, LARGEST_NUMBER])

    def in_vain(self):
        """One that is refused."""
        kind = self.rng.random()
        if kind < 0.6 and self.script.image.classes.past:
            return self.stale()
        if kind < 0.75:
            class_name, source = self.rng.choice(OF_KERNEL)
        else:
            class_name, source = self.rng.choice(CLASSES), self.rng.choice(UNREAD if kind < 0.85 else UNRESOLVED)
        return self.replace(class_name, source, self.rng.choice([0, 0, self.far(), LARGEST_NUMBER + 1]))

    def stale(self):
        """Over a version that a method had, or that is of another one. What is installed there now, or was removed, stays."""
        table = self.script.image.classes
        number, selector = place = self.rng.choice(list(table.past))
        present = table.version(number, selector) if selector in table.all[number].methods else 0
        others = {0, self.version(place), self.version(self.rng.choice(list(table.past))), self.far()} - {present}
        sources = [text for _, text in table.past[place] if text is not None]
        return self.replace(table.all[number].name, self.rng.choice(sources), self.rng.choice(sorted(others)))

    def replace(self, class_name, source, over):
        return self.script.add({"class": class_name, "cmd": "replace", "over": over, "source": source})
