"""The commands that list what the image has and what is known, and those on single methods."""

import re

from smalltalk.language import KERNEL_SELECTORS

from . import differing, edits, looks, references, shown, symbols
from .values import show, table
from .wrong import Wrong

INLINED = "; where it has blocks behind it, its code stands in place, and no method is run"
HAVING = "methods that have the symbol #{}, as to post it:"


def classes(session, rest):
    found = looks.user_classes(session)
    session.known.above.update((it.name, it.parent) for it in found)
    session.tell([it.written() for it in found] or ["no class was defined yet; define one as in  Counter : Object | count |"])


def methods(session, rest):
    if METHOD.fullmatch(rest):
        session.tell(shown.method(session, *method_of(session, rest)))
        return
    names = [rest] if rest else [it["name"] for it in looks.classes(session)]
    lines = [line for name in names for source in looks.own_sources(session, name) for line in f"{name} >> {source}".split("\n")]
    session.tell([line for line in lines if line.strip()] or ["no method was written yet" + (f" in {rest}" if rest else "")])
    if rest in KERNEL_SELECTORS:
        session.say(f"{rest} has of the kernel:  {' '.join(KERNEL_SELECTORS[rest])}")


def versions(session, rest):
    if re.fullmatch("[A-Z][A-Za-z0-9]*", rest):
        edits.of_class(session, rest)
        return
    name, selector = method_of(session, rest)
    found = looks.versions(session, name, selector)
    session.tell(differing.versions(name, selector, found))
    if not found:
        session.say(f"no method {selector} was written in {name}; :implementors {selector}  lists the classes that have one")
    last = found[-1] if found else {"removed": True}
    session.known.note_shown(name, selector, None if "removed" in last else {"class": name, **last})


def revert(session, rest):
    match = re.fullmatch(r"(.*\S)\s+([0-9]{1,9})", rest)
    if not match:
        raise Wrong("write a class, a selector and a version after it, as in  Counter bump 3")
    (name, selector), number = method_of(session, match[1]), int(match[2])
    row = next((it for it in looks.versions(session, name, selector) if it["version"] == number), None)
    if row is None:
        raise Wrong(f"{name} had no method {selector} of version {number}; :versions {name} {selector}  lists those that it had")
    if "removed" in row:
        raise Wrong(f"version {number} is that without the method; :remove {name} {selector}  removes it again")
    version = session.write(name, selector, row["source"])
    session.tell(shown.version(name, {**row, "version": version}))


def implementors(session, rest):
    selector = selector_of(rest)
    names = looks.implementors(session, selector)
    inlined = INLINED if selector in references.INLINED else ""
    session.tell([f"{name} >> {selector}" for name in names] or [f"no class has a method {selector}{inlined}"])


def senders(session, rest):
    """Lists who sends a message. One that is inlined is sent by nobody, so it is looked for in the sources, as a symbol is."""
    selector = selector_of(rest)
    found = [f"{it['class']} >> {it['selector']}" for it in looks.senders(session, selector)]
    inlined = references.inlining(session, selector)
    having = [f"{name} >> {own}" for name, own in symbols.methods(session, selector)]
    if not (found or inlined or having):
        none = ", none has it inlined," if selector in references.INLINED else ","
        session.say(f"no method sends {selector}{none} and none has the symbol #{selector}")
        return
    session.tell(found or [f"no method sends {selector}"])
    for head, methods_of in ((f"methods that have {selector} inlined, as it is with blocks:", inlined), (HAVING.format(selector), having)):
        session.tell([head, *methods_of] if methods_of else [])


def selector_of(rest):
    """The selector that is written after a command, as a symbol or without its sign."""
    if not rest:
        raise Wrong("write the name of a message after it, as in  bump  or  at:put:")
    match = METHOD.fullmatch(rest)
    if match:
        name = rest if ":" in match[1] else match[2]
        raise Wrong(f"write the name of a message alone after it, as in  {''.join(name.split())}")
    return rest.removeprefix("#")


def remove(session, rest):
    session.remove(*method_of(session, rest))


def stats(session, rest):
    class_name, selector = method_of(session, rest)
    sites = session.turns.ask({"cmd": "stats", "class": class_name, "selector": selector})["sites"]
    if not sites:
        session.say(f"{class_name} >> {selector} sends nothing")
        return
    rows = [["send", "sends", "site", "global", "walk", "state"]]
    for site in sites:
        name = ("super " if site["super"] else "") + site["selector"]
        rows.append([name, site["sends"], site["site"], site["global"], site["walk"], site["state"]])
    session.tell(table(rows))


METHOD = re.compile(r"([^\s>#]+)\s*(?:>>\s*|\s)#?(\S+)")


def method_of(session, rest):
    """The class and the selector that are written as `Counter bump` or `Counter >> bump`."""
    match = METHOD.fullmatch(rest)
    if not match:
        raise Wrong("write a class and a selector after it, as in  Counter bump")
    name = match[1]
    value = session.known.names.get(name)
    if isinstance(value, dict) and "ref" in value:
        class_name = session.known.actor(value["ref"]).class_name
        raise Wrong(f"{name} is an actor; write its class" + (f", {class_name}" if class_name else ""))
    return name, match[2]


def names(session, rest):
    found = session.known.names.items()
    lines = [f"{name} = {in_full(value, session)}" for name, value in found]
    session.tell(lines or ["nothing was named yet; name an actor as in  c := Counter actor"])


def in_full(value, session):
    return f"actor {value['ref']}" if isinstance(value, dict) and "ref" in value else show(value, session.known)
