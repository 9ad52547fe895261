"""Sources at the limits: one less, just as much, and one more than there may be."""

from .forms import chaining
from .words import long_word


def near(rng, limit):
    return limit + rng.choice([-2, -1, 0, 0, 1, 1, 2])


def brackets(rng):
    opening, closing = "", ""
    for _ in range(near(rng, 64)):
        open_one, close_one = rng.choice([("(", ")")] * 7 + [("true ifTrue: [", "]"), ("(false or: [", "])"), ("[", "]")])
        opening, closing = opening + open_one, close_one + closing
    inside = rng.choice(["1", "self", "3 + 4", "", "-9223372036854775809", "zork", "(1)", "[1]"])
    return rng.choice(["m ^", "m ", "m: x ^"]) + opening + inside + closing + rng.choice(["", "", ".", " foo", ")"])


def unclosed(rng):
    opening = rng.choice(["(", "[", "([", "true ifTrue: [", "((", "1 + ("]) * rng.randint(1, 300)
    return "m " + rng.choice(["^", ""]) + opening + rng.choice(["", "1", ")", "]", "3a", '"'])


def variables(rng):
    total, arguments = near(rng, 64), rng.randint(0, 8)
    temporaries = ["t%d" % number for number in range(total - arguments)]
    if rng.random() < 0.3:
        spoiled = ["self", "count", "a0", "t3", "t63", long_word(rng, 64), long_word(rng, 65), "nil"]
        temporaries[rng.randrange(len(temporaries))] = rng.choice(spoiled)
    pattern = " ".join("k: a%d" % number for number in range(arguments)) or "m"
    first, second = rng.randint(0, 60), rng.randint(0, 64)
    body = rng.choice(["^t%d" % second, "t%d := 3. ^t%d" % (first, second), "", "^a0", "a0 := 4"])
    return pattern + " |" + " ".join(temporaries) + "| " + body


def message_keywords(rng):
    words = ["foo:", "at:", "x:", "x:", "x:"] * 4 + [long_word(rng) + ":"]
    parts = [rng.choice(words) + " " + rng.choice(["1", "self", "#a", "3 + 4", "-1"]) for _ in range(near(rng, 8))]
    return rng.choice(["m ^self ", "m ^3 foo; ", "m ^(self ", "m ^super "]) + " ".join(parts) + rng.choice(["", ")", "; bar"])


def pattern_keywords(rng):
    pattern = "".join(rng.choice(["k: ", "at: ", "foo:"]) + "a%d " % number for number in range(near(rng, 8)))
    return pattern + rng.choice(["^a0", "^a7", "^zork", "a1 := 3", "| a0 |", "| t t |", "^" + long_word(rng, 65), ""])


def symbol_keywords(rng):
    words = ["a:", "b:", "c:"] * 6 + [long_word(rng, 64) + ":"]
    return "m ^#" + "".join(rng.choice(words) for _ in range(near(rng, 8))) + rng.choice(["", " class", "x", ":=", "=#b"])


def operands(rng):
    """Each level leaves some operands below the next one."""
    opening, closing, depth, wanted = "", "", 0, near(rng, 64) - 4
    levels = [("1 + (", ")", 1)] * 3 + [("1 a: 2 b: (", ")", 2)] * 3 + [("1 a: 2 b: 3 c: 4 d: 5 e: (", ")", 5)] * 2
    levels += [("(1 foo; + (", "))", 2), ("1 + (true ifTrue: [", "])", 1)]
    while depth < wanted:
        open_one, close_one, more = rng.choice(levels)
        opening, closing, depth = opening + open_one, close_one + closing, depth + more
    inside = rng.choice(["1", "1 + 2", "1 + 2; + 3", "self a: 1 b: 2 c: 3", "^4", ""])
    return rng.choice(["m ^", "m x := ", "m count := ", "m "]) + opening + inside + closing


def wide_operands(rng):
    levels = rng.randint(7, 10)
    inside = rng.choice(["1", "1 + 2", "1 + (2 + (3 + 4))", "1 a: 2 b: 3"])
    return "m ^" + "self a: 1 b: 2 c: 3 d: 4 e: 5 f: 6 g: 7 h: (" * levels + inside + ")" * levels


# Statements, and how many instructions each has with the one that drops its value.
STATEMENTS = [
    ("1+2", 4),
    ("count", 2),
    ("1 foo", 3),
    ("1+2;+3", 8),
    ("1<2 or:[3]", 8),
    ("true ifTrue:[2]", 6),
    ("[nil]whileTrue:[]", 7),
    ("count:=total:=3", 4),
    ("1+2+3+4+5+6+7+8", 16),
    ("true ifTrue:[1]ifFalse:[2. 3]", 8),
    ("[false]whileTrue:[1. 2. 3. 4. 5]", 15),
    ("self a:1 b:2 c:3", 6),
    ("#a=#b", 4),
    ("1 a;b;c;d;e;f", 18),
    ("true and:[false]", 6),
    ("1-2-3-4-5-6-7-8-9-1-2-3-4-5-6", 30),
    ("false or:[^3]", 7),
    ("true ifTrue:[]ifFalse:[]", 6),
]


def instructions(rng):
    wanted, length, statements = rng.choice([1022, 1023, 1024, 1024, 1024, 1025, 1025, 1026]), 2, []
    while length < wanted - 60:
        statement, more = rng.choice(STATEMENTS)
        statements.append(statement)
        length += more
    while length < wanted - 12:
        statements.append("1+2")
        length += 4
    if (wanted - length) % 2:
        statements.append("1 foo")
        length += 3
    statements += ["1"] * ((wanted - length) // 2)
    rng.shuffle(statements)
    return "m " + ". ".join(statements) + rng.choice(["", ".", ".^3", ".^nil", ".^count"])


def length_of_source(rng):
    start = rng.choice(["m ^3", "m ^zork", "m ^(", 'm "', "", "3", 'm "\u00e9"', "m @", "m ^[3]"])
    text = start + rng.choice(' \n a.1"') * max(0, near(rng, 4096) - len(start.encode()))
    return text[:-1] + rng.choice("x@\u00e9\"") if rng.random() < 0.3 else text


LONG_WORDS = (
    "{} ^3|m ^{}|m ^self {}|m ^#{}|m ^self {}: 3|{}: x ^x|m | {} | ^3|m: {} ^{}|m {} := 3|m ^#{}:b:|m ^#b:{}:|m ^#b:{}|"
    "m ^1 foo; {}|m ^{} := 4|m ^zork {}|m ^[3] {}|m: x x := {}|m ^99999999999999999999 {}|m ^{} + 99999999999999999999"
).replace("m | {} |", "m \x00 {} \x00").split("|")


def words(rng):
    return rng.choice(LONG_WORDS).replace("{}", long_word(rng, near(rng, 64))).replace("\x00", "|")


EDGES = [2**63, 2**63 - 1, 2**63 + 1, 2**64, 2**62, 10**19, 10**18, 2**127, 2**128, 2**64 + 5]


def numbers(rng):
    number = str(rng.choice(EDGES + [9223372036854775800 + rng.randint(0, 20)] * 2))
    other = str(rng.choice([2**63, 2**63 - 1, 2**63 + 1, 2**62, 2, 3, 1, 0]))
    sign = rng.choice(["", "-", "- ", "--", "3 -", "3 - -", "3--", "3 - "])
    behind = rng.choice(["", "a", ".", ".5", ". 5", " + ", " - ", "-", "*-", " // -", " * ", " \\\\ -", "//-", " < -", "="])
    return "m ^" + sign + rng.choice(["", "", "0", "000", "0" * 30]) + number + behind + rng.choice(["", other, other])


def frames(rng):
    """Methods that call themselves until there are about as many frames as there may be."""
    down = "down: n ^n = 0 ifTrue: [0] ifFalse: [1 + (self down: n - 1)]"
    counting = "m | i | i := 0. [i < %d] whileTrue: [i := i + 1]. ^i" % rng.randint(1, 450)
    starts = ["m ^self down: %d" % number for number in (124, 125, 126, 127, 128)]
    others = ["loop ^self loop", "m1 ^self m", "m ^self loop", "foo ^self m1", "bar self foo. self loop"]
    return rng.choice([down, down, counting] + starts + others)


KINDS = [
    brackets,
    unclosed,
    variables,
    message_keywords,
    pattern_keywords,
    symbol_keywords,
    operands,
    wide_operands,
    instructions,
    length_of_source,
    words,
    numbers,
    frames,
    chaining,
]


def at_a_limit(rng):
    return rng.choice(KINDS)(rng)
