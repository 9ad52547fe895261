"""The commands that read and write files."""

import os
from collections import Counter
from dataclasses import dataclass, field

from .cutting import continues, entries
from .entries import Command, Definition, form
from .gathering import gathered
from .tokens import has_body
from .values import count
from .wrong import Lost, Wrong

# So many refused entries say that a file is not meant to be loaded.
MOST_REFUSED = 20
# How an image file begins.
IMAGE = '{"actors":['
# What is said of what is written where the image was not asked, and where it does not have all.
KNOWN_HERE = " that this session knows"
MORE_HERE = ", with those of this session that the image never had"


@dataclass
class Loading:
    """A file that is being loaded, the line at which it is, how many of its classes the served image had already, how many of its
    faults were expected, and the methods that it and the files below it have written."""

    name: str
    real: str
    line: int = 0
    there: int = 0
    expected: int = 0
    written: list = field(default_factory=list)

    def __str__(self):
        return f"{self.name}, line {self.line}:"


def load(session, rest):
    """Whether all of a file was done."""
    if not rest:
        raise Wrong("write the name of a file after it, as in  :load counter.st")
    path = os.path.expanduser(rest)
    real = os.path.realpath(path)
    if any(real == it.real for it in session.loading):
        raise Wrong(f"{rest} is being loaded already")
    try:
        with open(path, encoding="utf-8-sig") as file:
            lines = file.read().split("\n")
    except UnicodeDecodeError:
        raise Wrong(f"{rest} cannot be read (it is no text in UTF-8)") from None
    except OSError as error:
        raise Wrong(f"{rest} cannot be read ({error.strerror})") from None
    if lines[0].startswith(IMAGE):
        raise Wrong(f"{rest} is an image, and no definitions; start a workspace on it with  bin/workspace --image {rest}")
    loading = Loading(rest, real)
    session.loading.append(loading)
    try:
        done = load_lines(session, lines)
    finally:
        session.loading.pop()
    session.tell_unknown(loading.written, of_file=True)
    done["Definition"] -= loading.there
    done["refused"] -= loading.expected
    said = [count(done[kind], thing) for kind, thing in (("Definition", "class"), ("Method", "method")) if done[kind]]
    if done["refused"]:
        said.append(f"{done['refused']} refused")
    if loading.there:
        said.append(f"{count(loading.there, 'class')} there already")
    session.say(f"{rest}: " + (", ".join(said) or "no definitions"))
    return not done["refused"]


def load_lines(session, lines):
    """How many entries there were of each kind."""
    done = Counter()
    for entry in classes_first(entries(lines), session.known):
        session.loading[-1].line = entry.line
        if session.breaks.asked or session.is_over or done["refused"] - session.loading[-1].expected == MOST_REFUSED:
            session.say(f"{session.loading[-1]} not done from here on")
            break
        done[session.do(entry.text)] += 1
    return done


def classes_first(found, known):
    """The entries with the definitions of new classes before the others, so that a method may name a class which is defined below.
    No entry goes over a command."""
    classes, others, names = [], [], set()
    for entry in found:
        kind = kind_of(entry.text)
        if isinstance(kind, Command):
            yield from [*classes, *others, entry]
            classes, others, names = [], [], set()
        elif isinstance(kind, Definition) and kind.name not in names and kind.name not in known.classes:
            names.add(kind.name)
            classes.append(entry)
        else:
            others.append(entry)
    yield from [*classes, *others]


def kind_of(text):
    try:
        return form(text)
    except Wrong:
        return None


def sources(session, rest):
    if not rest:
        raise Wrong("write the name of a file after it, as in  :sources counter.st")
    known, of_session = known_of(session)
    write(rest, definitions(known))
    methods = count(sum(len(it.methods) for it in known.classes.values()), "method")
    session.say(f"{rest}: {count(len(known.user_classes()), 'class')}, {methods}{of_session}")


def known_of(session):
    """The classes and methods to be written, with what is said of them. A served image is asked, unless it cannot be reached."""
    if not session.image.is_served:
        return session.known, ""
    try:
        found, are_more = gathered(session)
    except Lost as lost:
        session.is_lost = True
        session.say(lost.sentence)
        return session.known, KNOWN_HERE
    return found, MORE_HERE if are_more else ""


def definitions(known):
    """The lines of all classes and methods, in such an order and form that an image into which they are loaded has the same lines."""
    defined = {it.name: it for it in known.user_classes()}
    ordered = {name: it for name, it in known.classes.items() if name not in defined} | defined
    return [it.written() for it in defined.values()] + [line for it in ordered.values() for line in it.method_lines(as_loaded)]


def as_loaded(source):
    """A source as it is when it was loaded: a later line begins with two blanks or is empty, and there is a body."""
    first, *more = source.strip().replace("\r\n", "\n").replace("\r", "\n").split("\n")
    later = ["" if not line.strip() else line if continues(line) else "  " + line for line in more]
    return "\n".join([first, *later]) + ("" if has_body(source) else "  ^self")


def log(session, rest):
    if rest:
        write(rest, session.log.lines)
        session.say(f"{rest}: {count(len(session.log.lines), 'command')} with their replies")
    else:
        session.tell(session.log.lines[session.told : session.ended] or ["the line before sent nothing"])


def write(name, lines):
    try:
        with open(os.path.expanduser(name), "w", encoding="utf-8") as file:
            file.writelines(line + "\n" for line in lines)
    except OSError as error:
        raise Wrong(f"{name} cannot be written ({error.strerror})") from None
