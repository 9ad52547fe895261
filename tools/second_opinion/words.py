"""The words that random sources are made of: few, so that they meet one another, and those among them that rules speak of."""

GOOD = [
    "start count := 0",
    "bump count := count + 1. ^count",
    "a ^3 + 4 * 2",
    "b ^-7 // 2",
    "c ^-7 \\\\ 2",
    "m ^9223372036854775807 + 1",
    "who ^super who + 10",
    "go ^self missing",
    "ask: x ^x tag",
    "go | i s | i := 0. s := 0. [i < 3] whileTrue: [s := s * 10 + 3 tag. i := i + 1]. ^s",
    "spin [true] whileTrue: [nil]",
    "loop ^self loop",
    "make ^A newActor",
    "c ^1 + 2; + 10; * 4",
    "d ^false ifTrue: [1]",
    "e ^3 ifTrue: [1]",
    "m: x x := 1",
    "m | a a | ^a",
    "m ^-9223372036854775808",
    "+ x ^x",
    "m ^#at:put:",
    "at: i put: v ^i - v",
    "go ^self at: 7 put: 3",
    "foo: x bar: y m: z ^x * 10 + y * 10 + z",
    "go ^self foo: 1 bar: 2 m: 3",
    "m | x y | x := y := 3. ^x = y and: [x isNil not]",
    "fact: n ^n < 2 ifTrue: [1] ifFalse: [n * (self fact: n - 1)]",
    'm "comment" ^#+ "more" class',
    "m: x ^x isNil or: [x == #foo: ]",
    "m ^self foo; bar: 3; + 4; yourself",
    "m ^thisActor == self",
    "m | a | a := 10. [a = 0] whileFalse: [a := a - 1. a > 5 ifTrue: [count := a] ifFalse: [total := a. ^a]]. ^nil",
    "m ^((3 > 2) & (2 > 3)) not ifFalse: [1] ifTrue: [2]",
    "m ^self + 3 foo: -4 bar: #x y: Object z: A",
    "- x ^-1 - -2",
    "m ^3--4",
    "m ^3 -4",
    "<= x ^self class == x class.",
    "m ^[count := count. true] whileTrue: [^3]",
    "m | | .",
    "m ^super foo bar; baz",
    "m ^#a:b: = #a:b:",
    "m ^#a = #b.",
    "m self ifTrue: [^1]. ^2",
    "m ^(self isNil) | 3",
    "m ^x := 3",
    "m ^Object new: A",
    "fib: n ^n < 2 ifTrue: [n] ifFalse: [(self fib: n - 1) + (self fib: n - 2)]",
]

# Methods that send one another's selectors, for turns that call and that are answered by doesNotUnderstand:.
CALLING = [
    "foo ^self bar + 1",
    "bar count := 3. ^self m1",
    "m1 ^#a",
    "m1 ^self foo: 3",
    "foo: x ^x + 1",
    "foo: x total := x. ^self",
    "m | i | i := 0. [i < 20] whileTrue: [i := i + 1. self bar]. ^i",
    "bar ^3",
    "tag ^1",
    "tag ^2",
    "m | i s | i := 0. s := 0. [i < 9] whileTrue: [s := s * 3 + 3 tag. i := i + 1]. ^s",
    "who ^self who",
    "m ^[true] whileTrue: [self foo. count := 3]",
    "m1 ^self m1",
    "doesNotUnderstand: s ^s",
    "doesNotUnderstand: s count := s. ^self m",
    "doesNotUnderstand: s ^s = #foo ifTrue: [3] ifFalse: [self foo: s]",
    "doesNotUnderstand: s ^self bar: s",
    "doesNotUnderstand: x ^3",
]

# Methods that send to super, make objects and actors, and post, for turns in which several actors take part.
ACTING = [
    "who ^super who",
    "foo ^super foo + 1",
    "bar super bar. ^count",
    "foo: x ^super foo: x",
    "m ^super missing",
    "m1 ^super m1; foo",
    "m1 ^super class",
    "tag ^super == self",
    "m ^super foo: 1 bar: 2",
    "+ x ^super + x",
    "make ^B newActor",
    "keep count := C new. ^count",
    "m1 total := A newActor. ^total",
    "foo ^total post: #bar",
    "bar ^count == (count := A new)",
    "m ^(A new) == (A new)",
    "m ^B new foo",
    "count ^count",
    "count: x count := x",
    "m1 ^(C new count: 3) count",
    "foo: x ^x post: #count: with: 4",
    "m ^thisActor post: #foo",
    "m ^thisActor post: #count: with: self",
    "m ^thisActor post: #count: with: A new",
    "m ^thisActor post: #count:",
    "m ^thisActor post: 3",
    "m ^(A newActor post: #bar; post: #bar) not",
    "m ^A newActor class",
    "m | i | i := 0. [i < 5] whileTrue: [total := B newActor. total post: #foo: with: thisActor. i := i + 1]. ^i",
    "who [true] whileTrue: [B new]",
    "tag ^Symbol new",
    "tag ^Class newActor",
    "doesNotUnderstand: s ^super doesNotUnderstand: s",
    "doesNotUnderstand: s ^thisActor post: s",
    "doesNotUnderstand: s ^A new foo: s",
]

NAMES = (
    "count total extra x y z a b foo bar m m1 who self super nil true false thisActor Object A B SmallInteger True Symbol "
    "Zork zork class isNil not ifTrue close new value yourself"
).split()
VARIABLES = "count total x y z a b".split()
UNARY = "foo bar m m1 who class isNil not close new newActor self Foo nil whileTrue count".split()
BINARY = "+ - * / \\ < > = ~ & , // \\\\ <= >= == ~= -> -+ => ,, -= &&".split()
PLAIN_KEYWORDS = "foo: bar: at: put: m: x: post: with:".split()
KEYWORDS = PLAIN_KEYWORDS + "doesNotUnderstand: ifTrue: ifFalse: and: or: whileTrue: whileFalse: super: Foo:".split()
NUMBERS = (
    "0 1 2 3 7 10 64 007 9223372036854775807 9223372036854775808 9223372036854775806 9223372036854775809 "
    "18446744073709551616 4611686018427387904 3037000500 00009223372036854775808 99999999999999999999999999 4294967296"
).split()
NEGATIVE = "1 9223372036854775808 9223372036854775809 0".split()


def long_word(rng, length=None):
    """A word about as long as one may be."""
    length = length or rng.choice([63, 64, 65, 64, 65, 66, 100])
    return rng.choice("abX") + "".join(rng.choice("abc019ZY") for _ in range(length - 1))


def keywords(rng, counts):
    return "".join(rng.choice(KEYWORDS) for _ in range(rng.choice(counts)))


def symbol(rng):
    kind = rng.random()
    if kind < 0.4:
        return "#" + rng.choice(NAMES)
    if kind < 0.7:
        return "#" + keywords(rng, [1, 1, 2, 3])
    if kind < 0.9:
        return "#" + rng.choice(BINARY)
    if kind < 0.93:
        return "#" + keywords(rng, [7, 8, 9, 10])
    if kind < 0.96:
        return "#" + long_word(rng)
    return "#" + keywords(rng, [1, 2]) + rng.choice(NAMES)
