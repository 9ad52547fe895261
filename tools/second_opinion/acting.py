"""Sources whose methods send to super, make objects and actors, keep them, hand them around, and post. They know few selectors,
so that many messages are understood; the others end the turn, or come to a doesNotUnderstand:."""

CLASSES = "A B C A B C A B C Object Class Symbol ActorRef True".split()
UNARY = "foo bar m m1 who tag class isNil count total extra more".split()
BINARY = "+ = == - <".split()
KEYWORDS = ["foo:", "bar:", "count:", "foo:bar:"]
PATTERNS = UNARY + ["foo: x", "bar: x", "count: x", "foo: x bar: y", "= x", "doesNotUnderstand: x"]
# What every message may have as an argument, and the selectors that are posted, by their numbers of arguments.
SAFE = "1 2 #a nil thisActor A".split()
POSTED = ["foo bar m m1 who tag class".split(), "foo: bar: count: = + doesNotUnderstand:".split(), ["foo:bar:"]]
SLOTS = {"A": ["count", "total"], "B": ["count", "total", "extra"], "C": ["count", "total", "extra", "more"]}
SLOTS |= {"D": SLOTS["A"], "E": SLOTS["B"]}


class Acting:
    """A source for a class, of which it knows the instance variables."""

    def __init__(self, rng, class_name):
        self.rng = rng
        self.variables = list(SLOTS.get(class_name, []))
        self.arguments = []

    def pick(self, words):
        return self.rng.choice(words)

    def chance(self, part):
        return self.rng.random() < part

    def name(self):
        return self.pick(self.variables * 2 + self.arguments * 3 + ["self", "self", "thisActor", "thisActor"])

    def atom(self):
        kind = self.rng.random()
        if kind < 0.6:
            return self.name()
        if kind < 0.8:
            return str(self.rng.randint(0, 9))
        return self.pick(["#foo", "#foo:", "#=", "nil", "true", "false", "A", "B", "Object"])

    def made(self):
        return self.pick(CLASSES) + self.pick([" new", " new", " newActor"])

    def message(self, depth):
        kind = self.rng.random()
        if kind < 0.5:
            return self.pick(UNARY)
        if kind < 0.6:
            return self.pick(BINARY) + " " + self.inner(depth)
        return self.parts(self.pick(KEYWORDS), depth)

    def parts(self, selector, depth):
        return " ".join(word + ": " + self.inner(depth) for word in selector.split(":")[:-1])

    def post(self, depth):
        """Mostly of a selector that fits the further arguments, and seldom with an object among these."""
        count = self.pick([0, 0, 0, 1, 1, 2])
        fitting = count if self.chance(0.9) else self.pick([0, 1, 2])
        words = ["#" + self.pick(POSTED[fitting]) if self.chance(0.95) else self.inner(depth)]
        words += [self.pick(SAFE) if self.chance(0.8) else self.inner(0) for _ in range(count)]
        return " ".join("%s %s" % pair for pair in zip(("post:", "with:", "with:"), words))

    def receiver(self):
        """Somebody to post to."""
        known = self.variables + self.arguments + ["thisActor"] * 2 + ["(A newActor)", "(B newActor)"]
        return self.pick(known) if self.chance(0.95) else self.atom()

    def expression(self, depth):
        kind = self.rng.random()
        if depth <= 0 or kind < 0.15:
            return self.atom()
        if kind < 0.35:
            return self.made()
        if kind < 0.55:
            return "super " + self.message(depth - 1)
        if kind < 0.75:
            return self.receiver() + " " + self.post(depth - 1)
        if kind < 0.8:
            return self.receiver() + " " + self.post(depth - 1) + "; " + self.post(depth - 1)
        if kind < 0.81:
            return self.receiver() + " close"
        return self.inner(depth - 1) + " " + self.message(depth - 1)

    def inner(self, depth):
        text = self.expression(depth)
        return "(" + text + ")" if " " in text else text

    def statement(self, depth):
        kind = self.rng.random()
        if kind < 0.4 and self.variables:
            return self.pick(self.variables) + " := " + self.expression(depth)
        if kind < 0.5:
            return "%s isNil ifTrue: [%s]" % (self.name(), self.statement(depth - 1) if depth else "1")
        if kind < 0.55:
            return "(%s = %s) ifFalse: [^%s]" % (self.atom(), self.atom(), self.expression(1))
        return self.expression(depth)

    def loop(self):
        body = self.pick([self.made(), self.receiver() + " " + self.post(1), self.statement(1), self.statement(2)])
        return "i := 0. [i < %d] whileTrue: [%s. i := i + 1]" % (self.rng.randint(1, 6), body)

    def method(self):
        pattern = self.pick(PATTERNS)
        self.arguments = [word for word in ("x", "y") if " " + word in pattern]
        found = [self.statement(self.pick([1, 2, 2, 3])) for _ in range(self.pick([0, 0, 1, 1, 2, 3]))]
        loops = self.chance(0.12)
        if loops:
            found.insert(0, self.loop())
        if self.chance(0.8):
            found.append("^" + self.expression(self.pick([1, 2, 2, 3])))
        return pattern + (" | i | " if loops else " ") + ". ".join(found)


def acting(rng, class_name="A"):
    return Acting(rng, class_name).method()
