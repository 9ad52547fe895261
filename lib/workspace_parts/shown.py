"""What is said where a method's pattern alone is typed. That is a question to the image: it writes nothing."""

import re

from . import looks
from .known import near
from .wrong import Wrong

NO_BODY = "a method without a body is not written; one that does nothing is  {}  ^self"
# What is said where more than the pattern was typed: elsewhere an empty line often stands behind a comment.
TYPED_BELOW = "an empty line ends a method that is typed; type the body right below"
FILED_BELOW = "; behind an empty line a body goes on with lines that begin with two blanks or a tab"
# What the arguments of a pattern are called that nobody has written.
ARGUMENTS = "xyzuvwab"


def refuse(found, head):
    """In a file nobody asks."""
    raise Wrong(NO_BODY.format(f"{found.holder} >> {head}") + (FILED_BELOW if found.source != head else ""))


def shown(session, found, selector, head):
    """The lines for the method that an object of the class runs, with the class that has it; `head` is the pattern that was typed."""
    lines = answer(session, found.holder, selector, head)
    return lines if found.source == head else [*lines, TYPED_BELOW]


def answer(session, name, selector, head):
    found, typed = looks.shown_source(session, name, selector), f"{name} >> {head}"
    if found is None:
        return [missing(session, name, selector), NO_BODY.format(typed)]
    lines = lines_of(found, selector)
    if "kernel" in found and found["class"] == name:
        return lines
    return [*lines, f"{stays(name, found['class'])}; one that does nothing is written  {typed}  ^self"]


def stays(name, holder):
    return "this method stays" if holder == name else inherited(name, holder)


def inherited(name, holder):
    return f"{name} has this method from {holder}"


def method(session, name, selector):
    """The lines for what a message to an object of the class runs."""
    found = looks.shown_source(session, name, selector)
    if found is None:
        raise Wrong(missing(session, name, selector))
    return lines_of(found, selector) + ([] if found["class"] == name else [inherited(name, found["class"])])


def by_selector(session, name, selector):
    """The lines for a method whose selector alone was typed, without arguments, as lists show it."""
    if looks.shown_source(session, name, selector):
        return method(session, name, selector)
    words = re.findall("[^:]+:", selector) or [selector] * (not selector[0].isalpha())
    pattern = " ".join(f"{word} {argument}" for word, argument in zip(words, ARGUMENTS))
    wanted = [f"to write one, name its arguments, as in  {name} >> {pattern}"] if pattern else []
    return [missing(session, name, selector), *wanted]


def now(session, name, selector):
    """The lines for what a class has of its own, with the version."""
    found = looks.shown_source(session, name, selector)
    if not found or found["class"] != name or "version" not in found:
        return [f"{name} has no method {selector} of its own now"]
    return version(name, found)


def version(name, row):
    """The lines for an install or a removal."""
    text = "removed" if "removed" in row else f"{name} >> {row['source']}"
    return f"version {row['version']}: {text}".split("\n")


def missing(session, name, selector):
    return f"{name} has no method {selector}, and no class above it has one{near(selector, looks.understood(session, name))}"


def missing_above(session, name, selector):
    """The line for a message to `super` in a method of a class."""
    above = next((it["super"] for it in looks.classes(session) if it["name"] == name), None)
    there = [it for it in looks.understood(session, above) if it != selector] if above else []
    return f"no class above {name} has a method {selector}{near(selector, there)}"


def lines_of(found, selector):
    """The lines of a method as it is typed."""
    if "kernel" in found:
        return [f"{found['class']} >> {selector}  is a method of the kernel, which has no source"]
    return f"{found['class']} >> {found['source']}".split("\n")
