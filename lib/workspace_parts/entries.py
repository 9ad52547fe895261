"""The kinds of entries: a definition of a class, a method, a command, or statements."""

import re
from dataclasses import dataclass

from .habits import no_token, subclass
from .tokens import begins_comment, body, goes_on, has_body, is_open, without_comments
from .wrong import Wrong

WORD = r"[^\s:|.;()\[\]<>=#]+"
CLASS = re.compile(rf"\s*({WORD})(\s*):(?!=)\s*({WORD})\s*(\|[^|]*\|)?\s*$")
CLASS_BEGUN = re.compile(r"\s*[A-Z][A-Za-z0-9]*\s*:(?!=)")
METHOD = re.compile(r"\s*([A-Z][A-Za-z0-9]*)\s*>>")
META = re.compile(r"\s*[A-Z][A-Za-z0-9]*\s+class\s*>>")
COMMAND = re.compile(r"\s*:(?!=)([A-Za-z]*)\s*")
JSON = re.compile(r'\s*\{\s*"')
# Chunks, and Tonel.
FILED_OUT = re.compile(r"\s*(!|(Class|Extension|Trait)\s*\{|\{\s*#)")
BEGINNINGS = (COMMAND, META, METHOD, CLASS)
METHOD_BELOW = re.compile(r"\n[ \t]*[A-Z][A-Za-z0-9]*([ \t]+class)?[ \t]*>>")


@dataclass
class Definition:
    name: str
    parent: str
    slots: list


@dataclass
class Method:
    """`start` is where the source begins in what was typed."""

    holder: str
    source: str
    start: int


@dataclass
class Command:
    """`start` is where the text after the name begins in what was typed."""

    name: str
    rest: str
    start: int


@dataclass
class Statements:
    text: str


def begins(line):
    """Whether a line begins a command, a definition or a method."""
    return any(kind.match(line) for kind in BEGINNINGS)


def lacks_body(text):
    """Whether a text is a method with a pattern alone."""
    try:
        found = form(text)
    except Wrong:
        return False
    return isinstance(found, Method) and not has_body(found.source)


def wants_more(text):
    """Whether the lines so far are not the whole entry: a bracket is open, or a method has a pattern alone or ends where more comes, or
    a comment is open before which nothing is to be done. One that is open behind that is a slip, which is told at once."""
    try:
        found = form(text)
    except Wrong:
        return False
    if isinstance(found, Method):
        return is_open(found.source) or lacks_body(text) or begins_comment(body(found.source)) or goes_on(found.source)
    return isinstance(found, Statements) and (is_open(text) or begins_comment(text))


def is_one_line_method(text):
    """Whether a text is a method in one line, which further lines may go on with."""
    try:
        return "\n" not in text and isinstance(form(text), Method)
    except Wrong:
        return False


def check_below(plain):
    """Wrong if a method stands in a method's text, which has blanks where comments were."""
    below = METHOD_BELOW.search(plain)
    if not below:
        return
    opened = plain.find('"', 0, below.end())
    if opened >= 0:
        raise Wrong(no_token(plain, opened), opened)
    place = below.end() - len(below[0].lstrip())
    raise Wrong("an empty line ends the method above; in a file, no blanks stand before this", place)


def form(text):
    """What kind of entry a text is; None if nothing is in it but comments."""
    plain = without_comments(text)
    if not plain.strip():
        return None
    if JSON.match(text):
        raise Wrong("lines of JSON go to ./actorimage script, not here; see :log")
    if FILED_OUT.match(plain):
        raise Wrong("files of other Smalltalks are not read; a class is written  Counter : Object | count |  and a method  Counter >> bump")
    command = COMMAND.match(plain)
    if command:
        return Command(command[1], text[command.end() :].strip(), command.end())
    if META.match(plain):
        raise Wrong("classes have no methods of their own side; write  Name >> pattern  and a body")
    method = METHOD.match(plain)
    if method:
        check_below(plain)
        start = len(text) - len(text[method.end() :].lstrip())
        return Method(method[1], text[start:].rstrip(), start)
    if subclass(plain):
        raise Wrong(f"a class is defined as  {subclass(text)}")
    definition = CLASS.match(plain)
    if definition and (definition[1][0].isupper() or definition[2]):
        name, _, parent, slots = definition.groups()
        return Definition(name, parent, (slots or "||")[1:-1].split())
    if CLASS_BEGUN.match(plain):
        raise Wrong("a class is defined under another one, with its variables between bars:  Counter : Object | count |")
    return Statements(text)
