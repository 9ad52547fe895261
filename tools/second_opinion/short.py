"""All short sources over small alphabets: where a rule looks at a few neighbours, these have every way they can stand."""

from itertools import product

TOKENS = "m x: 3 super ; . ^ ( ) [ ] := | +".split()
ODD_TOKENS = ["3a", '"', "X", "-", "#a", ":"]
CHARACTERS = 'a3:#=-+".'
RECEIVERS = ["3", "[3]", "super", "([3])", "super m", "[]", "nil", "true"]
SELECTORS = "ifTrue: ifFalse: and: or: whileTrue: m:".split()
ARGUMENTS = ["[1]", "1", "([1])", "[^1]", "[]", "[1] m", "super", "[super]"]
SECOND = [""] + [" %s %s" % pair for pair in product(("ifTrue:", "ifFalse:", "m:"), ("[2]", "2", "[[2]]"))]


def short_sources():
    for words in product(TOKENS, repeat=3):
        yield "m " + " ".join(words)
    for words in product(TOKENS + ODD_TOKENS, repeat=2):
        yield " ".join(words)
        yield "m ^" + "".join(words)
    for words in product("m x: 3 super ; ) ( + 3a := .".split(), repeat=3):
        yield "m ^super " + " ".join(words)
    for start in ("", "m ^", "m ^3"):
        for characters in product(CHARACTERS, repeat=3):
            yield start + "".join(characters)
    for parts in product("m m: x x: + 3 3a X self |".split(), repeat=3):
        yield " ".join(parts) + " ^x"
    yield from inlined_messages()
    yield from named_methods()


def inlined_messages():
    for receiver, selector, argument, second in product(RECEIVERS, SELECTORS, ARGUMENTS, SECOND):
        yield "m ^%s %s %s%s" % (receiver, selector, argument, second)


def named_methods():
    """Names that are taken, reserved, capital or unknown, in each place that a name can have."""
    for argument, temporary, target, value, answer in product(
        ("x", "self", "count", "X"),
        ("y", "x", "nil", "total", "Y"),
        ("x", "y", "A", "self", "zork", "count"),
        ("x", "zork", "Zork", "[3]", "super m", "super"),
        ("y", "[4]", "zork"),
    ):
        yield "m: %s | %s | %s := %s. ^%s" % (argument, temporary, target, value, answer)
