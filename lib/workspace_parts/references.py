"""Where methods name a class or an instance variable, and where they have a message inlined: what no code shows. The sources of all methods
are read."""

import re

from smalltalk.language import CONDITIONALS, LOOPS, BadSource
from smalltalk.parser import Parser
from smalltalk.tree import Send, is_inlined

from . import looks, symbols
from .known import near
from .of_nil import nodes
from .values import table
from .wrong import Wrong

INLINED = (*CONDITIONALS, *LOOPS)
ASKED = re.compile(r"([A-Z][A-Za-z0-9]*)|([a-z][A-Za-z0-9]*)(?:\s+of\s+([A-Z][A-Za-z0-9]*))?")


def references(session, rest):
    asked = ASKED.fullmatch(rest)
    if not asked:
        raise Wrong("write a class after it, as in  Counter,  or an instance variable, as in  count of Counter")
    class_name, variable, holder = asked.groups()
    found = list(table(of_class(session, class_name) if class_name else of_variable(session, variable, holder)))
    session.tell(found or [f"no method names {class_name or variable}"])


def of_class(session, name):
    """A row for each method that names a class. Refused if there is no such class."""
    looks.methods(session, name)
    return [[place] for place, method in methods(session, name) if name in texts(method.uses)]


def of_variable(session, name, holder):
    """A row for each method that names an instance variable: of a class, those of all classes that have it from where that has it."""
    above = {it["name"]: it for it in looks.classes(session)}
    having = having_own(session, above, name, holder)
    found = methods(session, name, lambda it: any(one in having for one in chain(above, it)))
    return [[place, what] for place, method in found if (what := done_with(method, name))]


def having_own(session, above, name, holder):
    """The classes that define a variable; the one from which a class has it, where one is named."""
    if holder:
        looks.methods(session, holder)
    asked = list(chain(above, holder)) if holder else list(above)
    having = [it for it in asked if name in above[it]["slots"]]
    if not having:
        there = [slot for it in asked for slot in above[it]["slots"]]
        raise Wrong(f"{holder or 'no class'} has {'no' if holder else 'a'} variable {name}{near(name, there)}")
    return having


def chain(above, name):
    """The classes from this one to Object."""
    while name:
        yield name
        name = above[name]["super"] if name in above else None


def done_with(method, name):
    """Whether a method reads a variable, or assigns to it."""
    done = ["reads it"] * (name in texts(method.uses)) + ["assigns to it"] * (name in texts(method.assigned))
    return " and ".join(done)


def texts(names):
    return {it.text for it in names}


def inlining(session, selector):
    """Each method that has a message inlined, by version."""
    if selector not in INLINED:
        return []
    return [place for place, method in methods(session, selector.split(":")[0]) if any(is_one(it, selector) for it in nodes(method))]


def is_one(tree, selector):
    return isinstance(tree, Send) and tree.message.selector == selector and is_inlined(tree)


def methods(session, word, is_of=bool):
    """The methods that have a word in their sources, as they are listed, with their trees. `is_of` says of which classes."""
    for (name, selector), source in symbols.installed(looks.edits(session)).items():
        if word in source and is_of(name):
            yield f"{name} >> {selector}", read(source)


def read(source):
    """The tree of a source that the image has."""
    try:
        return Parser(source.encode(errors="replace")).parse()
    except BadSource as bad:
        raise Wrong(f"a source of the image is read otherwise here: {bad}; bin/workspace and the program are not of one version") from None
