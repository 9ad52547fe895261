"""The edits of the image in their order, whoever made them: what `:edits` lists."""

import re

from . import looks
from .tokens import pattern
from .values import count, table
from .wrong import Wrong

# So many are listed where no number is given.
LISTED = 20
NONE = "nothing was edited yet; define a class as in  Counter : Object | count |"


def edits(session, rest):
    """Lists the newest, the last one below."""
    if not re.fullmatch("|[1-9][0-9]{0,3}", rest):
        raise Wrong("write how many of the newest edits are to be listed after it, or nothing")
    there = session.turns.ask({"cmd": "status"})["edits"]
    first = max(0, there - int(rest or LISTED))
    found = looks.edits(session, first)
    if not found:
        session.say(NONE)
        return
    tell(session, list(enumerate(found, first + 1)))
    if first:
        session.say(f"the image has {count(first + len(found), 'edit')}; :edits {first + len(found)}  lists all")


def of_class(session, name):
    """Lists the newest of a class. All edits are asked for."""
    found = [(version, it) for version, it in enumerate(looks.edits(session), 1) if class_of(it) == name]
    if not found:
        looks.methods(session, name)
        session.say(f"{name} has no edits")
        return
    tell(session, found[-LISTED:])
    if len(found) > LISTED:
        session.say(f"{name} has {count(len(found), 'edit')}, of which these are the newest")


def tell(session, found):
    """Edits with their versions, and how to see what the last removed method was."""
    session.tell(table([["version", "class", "selector", "edit"], *(row(version, it) for version, it in found)]))
    removed = [it["remove"] for _, it in found if "remove" in it]
    if removed:
        session.say(f":versions {removed[-1]['class']} {removed[-1]['selector']}  shows what the removed method was")


def class_of(edit):
    (it,) = edit.values()
    return it.get("class", it.get("name"))


def row(version, edit):
    """The version that an edit gave, its class, of a method the selector, and what it did."""
    ((kind, it),) = edit.items()
    if kind == "define":
        return [version, it["name"], "", f"class defined under {it['super']}"]
    if kind == "reparent":
        return [version, it["class"], "", f"class put under {it['super']}"]
    if kind == "remove":
        return [version, it["class"], it["selector"], "method removed"]
    return [version, it["class"], pattern(it["source"])[0], "method installed"]
