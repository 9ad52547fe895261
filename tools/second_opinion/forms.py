"""Sources that put the eight inlined messages and the kernel's methods to all kinds of receivers and arguments."""

from smalltalk.language import CONDITIONALS, LARGEST, LOOPS, SMALLEST

BLOCK_RECEIVERS = (
    "[true]|[false]|[1. true]|([true])|true|false|super|(super foo)|super foo|3 < 4|(3 < 4)|nil|self|[true] foo|[]|[^3]|"
    "super + 3|[[true]]|(super)|3 foo; bar|count|-3|#a|thisActor class"
).split("|")
BLOCK_ARGUMENTS = (
    "[1]|[2. 3]|[]|[^4]|[^5.]|([1])|1|nil|[1] foo|[1] + 2|super|super foo|[[1]]|[true ifTrue: [6]]|[count := 3]|[1]|[8]|[9]|"
    "[super]|[super foo]|-3|[-3]|[zork]"
).split("|")
BLOCK_SELECTORS = list(CONDITIONALS + LOOPS) + [
    "ifTrue:ifTrue:",
    "and:and:",
    "whileTrue:whileFalse:",
    "timesRepeat:",
    "ifTrue:ifFalse:ifTrue:",
    "whileFalse:",
    "whileTrue:",
]

INTEGERS = [3, -7, 0, 2, 5, -5, 7, -2, 1, -1, LARGEST, LARGEST - 1, SMALLEST, 2**32, 3037000500, -3037000500, 2**62, -(2**62)]
VALUES = (
    "3 -7 0 2 5 -5 7 -2 true false nil #a #a: self A Object thisActor thisActor SmallInteger 9223372036854775807 "
    "-9223372036854775808 -1 1 4294967296 ActorRef Class count x y"
).split()
ARITHMETIC = "+ - * // \\\\ < > <= >= = ==".split()
QUESTIONS = "class|isNil|not|class|class class|isNil not|not not|class isNil|new|close|newActor|class new".split("|")
CHAINED = (
    "+ - * // \\\\ < > <= >= = == & ~= , -> isNil class not new newActor close foo bar m1 doesNotUnderstand: post: and: or: "
    "ifTrue:"
).split()


def inlining(rng):
    selector = rng.choice(BLOCK_SELECTORS)
    words = selector.split(":")[:-1]
    text = rng.choice(BLOCK_RECEIVERS) + " " + " ".join(word + ": " + rng.choice(BLOCK_ARGUMENTS) for word in words)
    kind = rng.random()
    if kind < 0.15:
        text += "; " + rng.choice(["foo", "+ 3", "foo: 3", words[0] + ": " + rng.choice(BLOCK_ARGUMENTS)])
    elif kind < 0.25:
        text = "(" + text + ") " + rng.choice(["foo", "+ 3", "ifTrue: [1]", "whileTrue: [1]", "and: [2]"])
    elif kind < 0.3:
        text = rng.choice(["count := ", "zork := ", "x "]) + text
    elif kind < 0.35:
        text = "3 foo: (" + text + ")"
    elif kind < 0.4:
        text = "[" + text + "] whileTrue: [" + rng.choice(["", "3", "^3"]) + "]"
    return "m " + rng.choice(["", "^", "^", "count := "]) + text + rng.choice(["", "", ".", ". ^7", ". count"])


def integer(rng):
    kind = rng.random()
    if kind < 0.8:
        return str(rng.choice(INTEGERS))
    return str(rng.randint(-100, 100) if kind < 0.9 else rng.randint(SMALLEST, LARGEST))


def value(rng):
    return integer(rng) if rng.random() < 0.6 else rng.choice(VALUES)


def computation(rng):
    kind = rng.random()
    if kind < 0.4:
        return integer(rng) + " " + rng.choice(ARITHMETIC) + " " + integer(rng)
    if kind < 0.6:
        return value(rng) + " " + rng.choice(ARITHMETIC) + " " + value(rng)
    if kind < 0.7:
        return rng.choice([value(rng), "thisActor", "A", "#a", "nil", "self", "true"]) + " " + rng.choice(QUESTIONS)
    if kind < 0.8:
        return rng.choice(["true", "false", "nil", "3", "(2 < 3)"]) + " & " + value(rng)
    if kind < 0.9:
        left = "(" + value(rng) + " " + rng.choice(ARITHMETIC) + " " + value(rng) + ") "
        return left + rng.choice(ARITHMETIC) + " " + value(rng)
    return value(rng) + " " + rng.choice(["=", "=="]) + " " + value(rng)


def computing(rng):
    before = rng.choice(["", "", "x := %s. ", "count := %s. ", "x := y := %s. "])
    before = before % value(rng) if before else ""
    return rng.choice(["m", "foo", "bar", "m1"]) + " | x y | " + before + "^" + computation(rng)


def chaining(rng):
    """Messages one after the other, most of which the receiver does not understand."""
    text = rng.choice(VALUES)
    for _ in range(rng.choice([1, 1, 2, 3])):
        selector = rng.choice(CHAINED)
        text = "(" + text + " " + selector + ("" if selector.isalpha() else " " + rng.choice(VALUES)) + ")"
    return "m ^" + text
