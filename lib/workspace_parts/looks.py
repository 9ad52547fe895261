"""What the image tells of its classes, methods and actors. It is asked each time, so it is what is there now, whoever wrote it. What it tells is
noted, for Tab, for :sources, and for what is said of refusals."""

from smalltalk.language import KERNEL_SELECTORS

from .known import KnownClass
from .tokens import pattern
from .wrong import Refused

# So many actors an image tells of at once (docs/PROTOCOL.md).
ACTORS_AT_ONCE = 4_096


def classes(session):
    """All classes by their numbers, those of the kernel first."""
    rows = session.turns.ask({"cmd": "classes"})["classes"]
    session.known.note_classes(rows)
    return rows


def class_there(session, name):
    """A class as it is there, if it is. It is not noted: a file puts only those under another one that this session knows."""
    rows = session.turns.ask({"cmd": "classes"})["classes"]
    return next((KnownClass(it["name"], it["super"], it["slots"]) for it in rows if it["name"] == name), None)


def user_classes(session):
    """Those that were defined, each behind the class above it."""
    names = {it["name"] for it in classes(session)}
    return [it for it in session.known.user_classes() if it.name in names]


def methods(session, name):
    """The methods that a class has of its own. Refused if there is no such class."""
    return session.turns.ask({"cmd": "methods", "class": name})["methods"]


def source(session, name, selector):
    """What a message to an object of the class runs, with the class that has it; None if no class up the chain has a method."""
    try:
        found = session.turns.ask({"cmd": "source", "class": name, "selector": selector})
    except Refused as refused:
        if refused.reply["error"] != "NoSuchMethod":
            raise
        found = None
    if found is None or found["class"] != name:
        forget_removed(session, name, [selector])
    if found and "source" in found:
        session.known.install(found["class"], selector, found["source"])
        # Tab brings it.
        if (found["class"], selector) not in session.known.shown:
            session.known.see_version(found["class"], selector, found["version"], found["source"])
    return found


def forget_removed(session, name, selectors):
    """Takes note of methods that the class has no more. One that the image never had stays known: a server may have begun a new image."""
    known = session.known.classes.get(name)
    for selector in selectors:
        if known and selector in known.methods and "removed" in (versions(session, name, selector) or [{}])[-1]:
            known.methods.pop(selector)


def shown_source(session, name, selector):
    """As `source`, for what is shown: an edit of this session takes the place of no other version than that."""
    found = source(session, name, selector)
    session.known.note_shown(name, selector, found)
    return found


def own_sources(session, name):
    """The sources of the methods that a class has of its own, but for the kernel's. One that is removed meanwhile is none."""
    own = [it["selector"] for it in methods(session, name) if "version" in it]
    known = session.known.classes.get(name)
    forget_removed(session, name, [it for it in (known.methods if known else ()) if it not in own])
    found = [shown_source(session, name, it) for it in own]
    return [it["source"] for it in found if it and it["class"] == name and "source" in it]


def versions(session, name, selector):
    return session.turns.ask({"cmd": "versions", "class": name, "selector": selector})["versions"]


def implementors(session, selector):
    return session.turns.ask({"cmd": "implementors", "selector": selector})["classes"]


def senders(session, selector):
    return session.turns.ask({"cmd": "senders", "selector": selector})["methods"]


def edits(session, first=0):
    """The edits behind the first ones, oldest first."""
    return all_edits(session.turns.ask, first)


def all_edits(ask, first=0):
    """The same, of who can be asked."""
    found = []
    while True:
        told = ask({"cmd": "edits", "from": first + len(found)})
        found += told["edits"]
        if first + len(found) >= told["version"]:
            return found


def sent(session, name, selector):
    """The selectors that a method sends, in the order of its code; none if it is gone."""
    try:
        sites = session.turns.ask({"cmd": "stats", "class": name, "selector": selector})["sites"]
    except Refused:
        return []
    return list(dict.fromkeys(it["selector"] for it in sites))


def actor(session, number):
    """The class of an actor. Refused if there is no such actor."""
    found, _ = actors(session, number, 1)
    if not found:
        raise Refused({"cmd": "actors", "actor": number}, {"error": "UnknownActor"})
    return found[0]["class"]


def actors(session, first, most):
    """So many actors at most, from a number on, and how many there are in all."""
    told = session.turns.ask({"cmd": "actors", "from": first, "most": most})
    for it in told["actors"]:
        session.known.actor(it["actor"]).class_name = it["class"]
    return told["actors"], told["count"]


def every_actor(session, first=0):
    """All actors from a number on, one after the other."""
    there = first + 1
    while first < there:
        found, there = actors(session, first, ACTORS_AT_ONCE)
        yield from found
        first += ACTORS_AT_ONCE


def inspect(session, number):
    """An actor as image files have it, with the number of its turn. Refused if there is no such actor."""
    told = session.turns.ask({"cmd": "inspect", "actor": number})
    session.known.actor(number).class_name = told["class"]
    return told


def slots(session, name):
    """The instance variables of a class, inherited ones first."""
    classes(session)
    return session.known.slots(name)


def installed(session, place):
    """The class, the selector and the source of a method, by the place of its install among the edits. No edit is ever another one, so what
    was told is told no more."""
    found = session.known.installed
    if place not in found:
        edits = session.turns.ask({"cmd": "edits", "from": place})["edits"]
        for number, edit in enumerate(edits, place):
            if "install" in edit:
                it = edit["install"]
                found[number] = it["class"], pattern(it["source"])[0], it["source"]
    return found[place]


def understood(session, name):
    """The messages that an object of the class understands, but for doesNotUnderstand:. Those of the users' methods come first."""
    above, own = {it["name"]: it["super"] for it in classes(session)}, set()
    while name in above:
        own.update(it["selector"] for it in methods(session, name) if "version" in it)
        name = above[name]
    return [it for it in (*sorted(own), *KERNEL_SELECTORS["Object"]) if it != "doesNotUnderstand:"]
