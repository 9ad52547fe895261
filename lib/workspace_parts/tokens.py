"""The tokens of what is typed. docs/LANGUAGE.md has the rules; the program is the judge of sources, and this only helps to say
where and why."""

import re
from dataclasses import dataclass
from itertools import takewhile

SPACE = re.compile(r'(?:[\t\n\f\r ]|"[^"]*")+')
TOKEN = re.compile(
    r"""(?P<keyword>[A-Za-z][A-Za-z0-9]*:(?!=))
      | (?P<word>[A-Za-z][A-Za-z0-9]*)
      | (?P<number>[0-9]+(?![A-Za-z]|\.[0-9])(?![0-9]))
      | (?P<symbol>\#(?:(?:[A-Za-z][A-Za-z0-9]*:(?!=))+(?![A-Za-z])
                      |[A-Za-z][A-Za-z0-9]*(?![A-Za-z0-9]|:(?!=))
                      |[-+*/\\<>=~&,][+*/\\<>=~&,]?))
      | (?P<assign>:=)
      | (?P<binary>[-+*/\\<>=~&,][+*/\\<>=~&,]?)
      | (?P<alone>[()\[\]^.;|])""",
    re.VERBOSE,
)


@dataclass(frozen=True)
class Token:
    """`kind` is keyword, word, number, symbol, assign, binary, a character that stands alone, end, or none: a place where no
    token begins."""

    kind: str
    text: str
    start: int
    stop: int


def tokens(text):
    """All tokens up to the end or to the first place where none begins, which is the last one then."""
    found, place = [], 0
    while True:
        space = SPACE.match(text, place)
        place = space.end() if space else place
        if place == len(text):
            return found + [Token("end", "", place, place)]
        match = TOKEN.match(text, place)
        if not match:
            return found + [Token("none", text[place], place, place + 1)]
        kind = match[0] if match.lastgroup == "alone" else match.lastgroup
        found.append(Token(kind, match[0], place, match.end()))
        place = match.end()


def is_open(text):
    """Whether a bracket is open at the end. It is also where something before the end begins no token, as in the colon of `[:each | 3]`."""
    plain = without_comments(text).partition('"')[0]
    return sum({"(": 1, "[": 1, ")": -1, "]": -1}.get(character, 0) for character in plain) > 0


def begins_comment(text):
    """Whether a comment is open at the end, with nothing but comments before it."""
    return without_comments(text).lstrip().startswith('"')


def without_comments(text):
    """The text with blanks where comments were, so that places stay."""
    return re.sub(r'"[^"]*"', lambda comment: re.sub(r"[^\n]", " ", comment[0]), text)


def pattern(source):
    """The selector of a method's source and the place after its pattern; None if there is no pattern."""
    found = tokens(source)
    first = found[0]
    if first.kind == "word":
        return first.text, first.stop
    if first.kind == "binary" and found[1].kind == "word":
        return first.text, found[1].stop
    selector, stop = "", 0
    for keyword, name in zip(found[::2], found[1::2]):
        if keyword.kind != "keyword" or name.kind != "word":
            break
        selector, stop = selector + keyword.text, name.stop
    return (selector, stop) if selector else None


def bare_selector(source):
    """The selector that a source is, without the names of arguments, as lists show it, with or without its #; None of any other."""
    *found, last = tokens(source)
    if last.kind != "end" or not found:
        return None
    if len(found) == 1 and found[0].kind in ("binary", "symbol"):
        return found[0].text.removeprefix("#")
    return "".join(it.text for it in found) if all(it.kind == "keyword" for it in found) else None


def temporaries(source):
    """The temporaries of a source, and the place after them; no names and the place after the pattern if it has none."""
    start = (pattern(source) or ("", 0))[1]
    found = tokens(source[start:])
    if found[0].kind != "|":
        return [], start
    names = [token.text for token in takewhile(lambda token: token.kind == "word", found[1:])]
    return names, start + found[min(len(names) + 1, len(found) - 1)].stop


def arguments(source):
    """The arguments of a source."""
    found = pattern(source)
    words = tokens(source[: found[1]])[:-1] if found else []
    return [token.text for token in words[1:] if token.kind == "word"]


def posted(source):
    """The selectors of the messages that a source posts, as far as they stand there as symbols."""
    found = tokens(source)
    return [it.text[1:] for before, it in zip(found, found[1:]) if before.text == "post:" and it.kind == "symbol"]


def body(source):
    """What stands after the pattern and the temporaries of a source."""
    return source[temporaries(source)[1] :]


# What ends a line behind which a statement or an operand comes.
BEFORE_MORE = ("binary", "keyword", "assign", "^", ";", ".")


def goes_on(source):
    """Whether a source ends where more comes. Behind an answer and its period nothing does."""
    *found, last = tokens(body(source))
    if pattern(source) is None or last.kind != "end" or len(found) < 2 or found[-1].kind not in BEFORE_MORE:
        return False
    return found[-1].kind != "." or not ends_in_answer(found[:-1])


def ends_in_answer(found):
    """Whether the last statement of some tokens, in the brackets in which they end, is an answer."""
    depth = 0
    for token in reversed(found):
        depth += {")": 1, "]": 1, "(": -1, "[": -1}.get(token.kind, 0)
        if depth < 0 or (depth == 0 and token.kind == "."):
            return False
        if depth == 0 and token.kind == "^":
            return True
    return False


def has_body(source):
    """Whether a source has more than a pattern, temporaries and comments."""
    return pattern(source) is None or tokens(body(source))[0].kind != "end"
