"""Sources that are made of others by a few small changes of their tokens or characters."""

import re

from .words import BINARY, KEYWORDS, NAMES, NUMBERS, symbol

ROUGH_TOKEN = re.compile(r'"[^"]*"?|#?[A-Za-z][A-Za-z0-9]*:?=?|\d+|:=|[ \n\t\r\f]+|.', re.S)
PUNCTUATION = [":=", "^", ";", ".", "(", ")", "[", "]", "|"]
SCRAPS = list("abxAZ019 ()[]^.;|:=#\"+-*/\\<>=~&,\n\t_@!\0\x7f\x0b\u00e9\u20ac'{$%?") + [
    ":=",
    '"a"',
    " super ",
    " self ",
    "[]",
    "()",
    ". ",
]


def operand(rng):
    return rng.choice([rng.choice(NAMES), rng.choice(KEYWORDS), rng.choice(BINARY), rng.choice(NUMBERS), symbol(rng)])


def change_tokens(rng, source):
    tokens = ROUGH_TOKEN.findall(source)
    place, other = rng.randrange(len(tokens)), rng.randrange(len(tokens))
    kind = rng.random()
    if kind < 0.25:
        del tokens[place]
    elif kind < 0.6:
        tokens.insert(place, tokens[other if kind < 0.45 else place])
    elif kind < 0.75:
        tokens[place], tokens[other] = tokens[other], tokens[place]
    elif kind < 0.9:
        new = rng.choice(PUNCTUATION) if rng.random() < 0.65 else operand(rng)
        tokens.insert(place, rng.choice([" ", ""]) + new + rng.choice([" ", ""]))
    else:
        tokens[place] = operand(rng)
    return "".join(tokens)


def change_characters(rng, source):
    place, other = sorted((rng.randrange(len(source)), rng.randrange(len(source))))
    kind = rng.random()
    if kind < 0.3:
        return source[:place] + source[place + 1 :]
    if kind < 0.65:
        return source[:place] + rng.choice(SCRAPS) + source[place:]
    if kind < 0.75:
        return source[:place] + source[place] + source[place:]
    if kind < 0.85:
        return source[:place] + rng.choice(SCRAPS) + source[place + 1 :]
    return source[:place] + source[other:] if kind < 0.93 else source[:place]


def mutated(rng, source):
    for _ in range(rng.choice([1, 1, 1, 2, 2, 3, 5])):
        if source:
            source = change_tokens(rng, source) if rng.random() < 0.5 else change_characters(rng, source)
    return source
