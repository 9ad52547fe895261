"""Sources that are grown from the grammar. The sane ones keep to names that are there, so that most can be run; of the others
about each second breaks some rule."""

from .words import BINARY, KEYWORDS, NAMES, NEGATIVE, NUMBERS, PLAIN_KEYWORDS, UNARY, VARIABLES, long_word, symbol

SANE_UNARY = "foo bar m m1 isNil class not".split()
SANE_BINARY = "+ - * // \\\\ < > = <= == &".split()
SANE_NAMES = "count total self nil true false thisActor A SmallInteger".split()
SPARE_NAMES = ["v%d" % number for number in range(20)]
OPERATORS = "+-*/\\<>=~&,"


class Grower:
    """Grows lists of tokens. `budget` counts the operands that are still to come, so that a method ends."""

    def __init__(self, rng, sane):
        self.rng = rng
        self.sane = sane
        self.big = rng.random() < 0.15
        self.budget = rng.randint(100, 900) if self.big else rng.randint(2, 60)
        self.arguments = []
        self.temporaries = []

    def pick(self, words):
        return self.rng.choice(words)

    def chance(self, part):
        return self.rng.random() < part

    def name(self):
        own = self.temporaries * 3 + self.arguments
        return self.pick(own + self.temporaries + SANE_NAMES if self.sane else NAMES + own + self.arguments * 2)

    def target(self):
        if self.sane:
            return self.pick(self.temporaries + ["count", "total"])
        wrong = ["self", "A", "super", "zork"] + self.arguments if self.chance(0.15) else []
        return self.pick(VARIABLES + self.temporaries * 4 + wrong)

    def number(self):
        if self.sane and self.chance(0.9):
            return [str(self.rng.randint(0, 20))] if self.chance(0.8) else ["-", str(self.rng.randint(0, 9))]
        return ["-", self.pick(NEGATIVE)] if self.chance(0.2) else [self.pick(NUMBERS)]

    def primary(self, depth):
        self.budget -= 1
        kind = self.rng.random()
        if depth <= 0 or self.budget <= 0:
            kind *= 0.8
        if kind < 0.35:
            return [self.name()]
        if kind < 0.65:
            return self.number()
        if kind < 0.72:
            return [symbol(self.rng)]
        if kind < 0.8:
            return [self.name()]
        return self.parenthesis(depth) if self.sane or kind < 0.92 else self.block(depth - 1)

    def parenthesis(self, depth):
        return ["("] + self.expression(depth - 1) + [")"]

    def block(self, depth):
        return ["["] + self.statements(depth) + ["]"]

    def unary(self, depth):
        if not self.sane and self.chance(0.05):
            return ["super", self.pick(UNARY)]
        found = self.primary(depth)
        while self.chance(0.2):
            found.append(self.pick(SANE_UNARY if self.sane else UNARY))
        return found

    def operator(self):
        return self.pick(SANE_BINARY if self.sane else BINARY)

    def binary(self, depth):
        found = self.unary(depth)
        while self.chance(0.35):
            found += [self.operator()] + self.unary(depth)
        return found

    def keyword_message(self, depth):
        count = self.pick([8, 9, 10]) if self.chance(0.01) else self.pick([1, 1, 1, 2, 2, 3])
        found = []
        for _ in range(count):
            found += [self.pick(PLAIN_KEYWORDS if self.sane else KEYWORDS)] + self.binary(depth)
        return found

    def boolean(self, depth):
        kind = self.rng.random()
        if kind < 0.25:
            return [self.pick(["true", "false"])]
        if kind < 0.7:
            return self.unary(depth) + [self.pick(["=", "==", "<", ">"])] + self.number()
        both = self.boolean(depth - 1) + [self.pick(["and:", "or:"]), "["] + self.boolean(depth - 1)
        return ["("] + both + ["]", ")"]

    def conditional(self, depth):
        if self.sane and self.chance(0.6):
            receiver = self.boolean(depth)
        else:
            receiver = self.binary(depth) if self.chance(0.6) else self.parenthesis(depth)
        words = self.pick([["ifTrue:"], ["ifFalse:"], ["and:"], ["or:"], ["ifTrue:", "ifFalse:"], ["ifFalse:", "ifTrue:"]])
        return receiver + [token for word in words for token in [word] + self.block(depth)]

    def loop(self, depth):
        if not (self.sane and self.temporaries):
            return self.block(depth) + [self.pick(["whileTrue:", "whileFalse:"])] + self.block(depth)
        # A loop that counts, so that it ends.
        counter = self.pick(self.temporaries)
        before = self.expression(depth - 1) + ["."] if self.chance(0.2) else []
        condition = ["["] + before + [counter, "<", str(self.rng.randint(0, 12)), "]"]
        body = self.expression(depth - 1) + [".", counter, ":=", counter, "+", str(self.rng.randint(1, 3))]
        return condition + ["whileTrue:", "["] + body + ["]"]

    def keyword(self, depth):
        kind = self.rng.random()
        if kind < 0.25 and depth > 0 and self.budget > 0:
            return self.conditional(depth) if self.chance(0.5) else self.loop(depth)
        found = self.binary(depth)
        return found + self.keyword_message(depth) if kind < 0.45 else found

    def message(self, depth):
        kind = self.rng.random()
        if kind < 0.3:
            return [self.pick(UNARY)]
        return [self.operator()] + self.unary(depth) if kind < 0.7 else self.keyword_message(depth)

    def expression(self, depth):
        found = []
        while self.chance(0.2):
            found += [self.target(), ":="]
        if depth <= 0 or self.chance(0.9):
            return found + self.keyword(depth)
        found += self.binary(depth) + self.message(depth)
        for _ in range(self.pick([1, 1, 2, 3])):
            found += [";"] + self.message(depth - 1)
        return found

    def statements(self, depth):
        count = self.pick([0, 1, 1, 1, 2, 2, 3])
        found = []
        for number in range(1, count + 1):
            if number == count and self.chance(0.3):
                found.append("^")
            found += self.expression(depth)
            if number < count or self.chance(0.3):
                found.append(".")
        return found

    def pattern(self, pool):
        kind = self.rng.random()
        if kind < 0.5:
            return [self.pick("m m1 foo bar who tag".split() if self.sane else UNARY + ["tag"])]
        if kind < 0.65:
            self.arguments = [pool.pop(0)]
            return [self.pick(BINARY)] + self.arguments
        found = []
        for _ in range(self.pick([1, 1, 2, 3]) if self.chance(0.97) else self.pick([7, 8, 9])):
            self.arguments.append(pool.pop(0))
            found += [self.pick(PLAIN_KEYWORDS if self.sane else KEYWORDS), self.arguments[-1]]
        return found

    def spoiled_name(self):
        return self.pick(["count", "self", "X", "super", "nil", "x", long_word(self.rng, 64), long_word(self.rng, 65)])

    def method(self):
        pool = "x y z a b p q r s".split()
        self.rng.shuffle(pool)
        pool += SPARE_NAMES
        if not self.sane and self.chance(0.1):
            pool[0] = self.spoiled_name()
        found = self.pattern(pool)
        if self.chance(0.6):
            self.temporaries = pool[: self.pick([0, 1, 2, 3])]
            if not self.sane and self.chance(0.06):
                self.temporaries.append(self.pick([self.spoiled_name()] + self.arguments))
            found += ["|"] + self.temporaries + ["|"]
        if self.sane:
            for name in self.temporaries:
                if self.chance(0.9):
                    found += [name, ":="] + self.number() + ["."]
        return found + self.body()

    def body(self):
        found = self.statements(self.rng.randint(4, 14) if self.big else self.rng.randint(1, 4))
        while self.big and self.budget > 0 and "^" not in found[-40:] and self.chance(0.97):
            if found and found[-1] != ".":
                found.append(".")
            found += self.statements(self.rng.randint(2, 14))
        return found


def must_part(left, right):
    """Whether two tokens would be others without white space between them."""
    before, after = left[-1], right[0]
    if before in OPERATORS:
        return after in OPERATORS and after != "-"
    return (
        (before.isalnum() and (after.isalnum() or after == ":"))
        or (before == "." and after.isdigit())
        or (before == ":" and after == "=")
    )


def between(rng, left, right, wild):
    """What is between two tokens. A wild source may lose white space that it needs."""
    if left == "-" and right[0].isdigit() and rng.random() < 0.95:
        return ""
    kind = rng.random()
    if wild and kind < 0.3:
        return ""
    if kind < 0.05:
        return rng.choice(["\n", "\t", "\r", "\f", "  "])
    if kind < 0.08:
        return rng.choice(['"c"', '"', '""', '" it\'s @ "'] if wild else ['"c"', '""', ' "x y" '])
    return " " if must_part(left, right) or kind < 0.7 else ""


def joined(rng, tokens, wild=False):
    text = rng.choice([" ", '"c"', "\n"]) if rng.random() < 0.05 else ""
    for place, token in enumerate(tokens):
        if place:
            text += between(rng, tokens[place - 1], token, wild)
        text += token
    return text + (rng.choice([" ", ' "e"', ".", '"', "\n"]) if rng.random() < 0.1 else "")


def grown(rng, sane):
    return joined(rng, Grower(rng, sane).method(), not sane and rng.random() < 0.4)
