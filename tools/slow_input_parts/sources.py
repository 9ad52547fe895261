"""Sources of methods that are made to take long to read or to compile."""

LONGEST = 4096
LETTERS = "abcdefghijklmnopqrstuvwxyz"

# What is repeated in a source, after a pattern and before an end.
PIECES = [
    "(", "[", ")", "]", "()", "[]", "(1)", "[1].", "^", ".", ";", ":", ":=", "#", "#(", '"', '""', '"a"', "|", "||", "-", "--1", "+ ",
    "1", "1 ", "1. ", "-1 ", "1.", "x", "x ", "x. ", "x := ", "x := y := ", "a: ", "a: 1 ", "a:b:", "#a:", "#a:b: ", "#a ", "#+ ",
    "#a. ", "1 + ", "1 foo. ", "foo ", "self foo: 1; ", "; foo", "; foo: 1", "; + 1", "super ", "super foo. ", "super foo + ",
    "self ifTrue: [", "self ifTrue: [1]. ", "x ifTrue: [1] ifFalse: [2]. ", "[x] whileTrue: [", "[x] whileTrue: [1]. ", "nil. ",
    "zork. ", "Zork. ", "thisActor ", "true and: [", "true and: [true]. ", "(true and: [", "x isNil ifTrue: [^1]. ", "((((1)))). ",
    "\t", "\n", " ", "\x00", "\x7f", "\u00e9", "@", "9" * 30 + " ", "9" * 4000, "k" * 70 + " ", "k" * 64 + ": ", "#" + "k:" * 9 + " ",
    "a:b:c:d:e:f:g:h: 1. ", "foo: 1 bar: 2 baz: 3. ", "(self foo: (self bar: ", "- 1 - ", "// \\\\ ", "== ", "<= 1 ",
]  # fmt: skip

# What stands before and behind.
FRAMES = [
    ("m ", ""),
    ("m ^", ""),
    ("m | x y | ", ""),
    ("m ^1 ", " zork"),
    ("m | x | x := 1. ", " ^("),
    ("m ", " ^zork"),
    ("m: x ", " @"),
    ("", ""),
]


def filled(before, piece, behind):
    """As often as there is place."""
    room = LONGEST - len((before + behind).encode())
    return before + piece * (room // len(piece.encode())) + behind


def numbered_names(count):
    """Names of three letters, all different."""
    return [LETTERS[n // 676 % 26] + LETTERS[n // 26 % 26] + LETTERS[n % 26] for n in range(count)]


def picked():
    """Sources by hand: as many names, variables, sites and brackets as there may be, whole and with a fault at the end."""
    names = numbered_names(1500)
    variables = ["v%d" % n for n in range(64)]
    symbols = "m " + " ".join("#" + it + "." for it in names)
    sends = "m ^self " + " ".join(names)
    yield "new symbols", symbols[:LONGEST].rsplit(" ", 1)[0]
    yield "new selectors", sends[: LONGEST - 1].rsplit(" ", 1)[0]
    yield "340 sites", "m " + "self foo. " * 340
    yield "64 variables, each looked up", filled("m | " + " ".join(variables) + " | ", "v63. ", "")
    yield "64 variables, and one named twice", "m | " + " ".join(variables[:63]) + " v0 | ^1"
    yield "65 variables", "m | " + " ".join(variables) + " more | ^1"
    yield "1,024 instructions and one more", "m " + "nil. " * 511 + "^1"
    yield "64 brackets, many times", filled("m ", "(" * 64 + "1" + ")" * 64 + ". ", "")
    yield "64 blocks, once", "m ^true " + "and: [true " * 64 + "]" * 64
    yield "65 brackets behind many tokens", filled("m ", "1. ", "(" * 65 + "1" + ")" * 65)
    yield "a depth of 64 operands", "m ^" + "1 + (" * 63 + "1" + ")" * 63
    yield "a depth of 65 operands", "m ^" + "self foo: (" * 64 + "1" + ")" * 64
    yield "a cascade", filled("m ^self foo", "; foo", "")
    yield "cascades in brackets", filled("m ", "(1 a; b; c) a; b; c. ", "")
    yield "many escaping blocks", filled("m ", "[1]. ", "")
    yield "a comment of the whole source", filled('m "', "a", '" ^1')
    yield "no end of a comment", filled('m "', "a", "")
    yield "many comments", filled("m ", '"a" ', "^1")


def sources():
    """Names and sources."""
    yield from picked()
    for number, (before, behind) in enumerate(FRAMES):
        for piece in PIECES:
            yield f"frame {number} with {piece[:20]!r}", filled(before, piece, behind)
