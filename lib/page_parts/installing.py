"""Changes of classes and methods, each told with what is wrong and where, and none over an edit of another person."""

import actorimage
from common.compact import in_given_order
from workspace_parts import advice, served_advice
from workspace_parts.connection import LONGEST_LINE
from workspace_parts.known import near
from workspace_parts.sources import Fault
from workspace_parts.tokens import pattern

from .places import sends_of

TOO_LONG = "this is too long for one line to the server, 8,192 bytes with its escapes; put a part of it into another method"


def told(kept, line, command):
    """The reply to a change, or what is said where it is refused."""
    if len(in_given_order(command).encode(errors="replace")) > LONGEST_LINE:
        return {"error": "TooLong", "said": TOO_LONG}
    try:
        return {"ok": line.ask(command)}
    except actorimage.Refused as refused:
        return said(kept, command, {"error": refused.name, **refused.fields})


def said(kept, command, reply):
    """A refusal in the words of the workspace; that of a source with its place."""
    if reply["error"] == "BadSource":
        return bad_source(kept, command, reply)
    sentence = advice.refusal(command, reply, served_advice.REFUSALS)
    if reply["error"] == "UnknownClass":
        name = next((it for it in (command.get("class"), command.get("super")) if it and it not in kept.classes), "")
        sentence = advice.refusal({**command, "class": name, "super": name}, reply, served_advice.REFUSALS) + near(name, kept.classes)
    return {**reply, "said": sentence}


def bad_source(kept, command, reply):
    source, place = command["source"], letter_at(command["source"], reply["offset"])
    fault = Fault(source, reply["kind"], place, kept.slots(command["class"]), kept.classes)
    length = len(fault.token.text) if fault.token.start == 0 else 0
    return {**reply, "said": f"{reply['kind']}: {fault.sentence()}", "place": [place, place + max(1, length)]}


def letter_at(source, offset):
    """The letter at a byte."""
    return len(source.encode(errors="replace")[:offset].decode(errors="ignore"))


def install(kept, line, name, source, seen):
    """Installs a method over the version that was seen, and over none where the pattern has another selector than that. Another version
    is told with its text, and stays."""
    selector = (pattern(source) or ("", 0))[0]
    over = seen["version"] if selector == seen["selector"] else 0
    reply = told(kept, line, {"cmd": "replace", "class": name, "over": over, "source": source})
    kept.catch_up()
    if reply.get("error") == "Stale":
        reply["theirs"] = theirs(kept, name, selector)
    return {**reply, "selector": selector, "unknown": unknown(kept, source) if "ok" in reply else []}


def theirs(kept, name, selector):
    """The method that is there in place of the one that was seen, and whether the newest edit of it was made by this page."""
    with kept.lock:
        source, version = kept.source(name, selector) or (None, 0)
        edits = kept.history.get((name, selector), [(0, None)])
        return {"source": source, "version": version, "isOurs": edits[-1][0] in kept.line.ours}


def unknown(kept, source):
    """The messages that a source sends or posts and that no class has a method for."""
    sends = sends_of(source)
    names = dict.fromkeys([it.selector for it in sends] + [it.posted for it in sends if it.posted])
    return [it for it in names if not kept.implementors(it)]


def remove(kept, line, name, selector, seen):
    """Removes a method, if it is the version that was seen. Another person's edit between the two would be told by the versions. What was
    removed is told with its text, so that just that can be installed again."""
    kept.catch_up()
    found = kept.source(name, selector)
    if found and found[1] != seen:
        return {"error": "Stale", "said": "somebody has replaced it meanwhile; look at it first",
            "theirs": theirs(kept, name, selector)}
    reply = told(kept, line, {"cmd": "remove", "class": name, "selector": selector})
    kept.catch_up()
    if "ok" in reply:
        before = [it for it in kept.history.get((name, selector), []) if it[0] < reply["ok"]["version"]]
        reply["removed"] = {"version": before[-1][0], "source": before[-1][1]}
    return reply


def define(kept, line, name, above, slots):
    reply = told(kept, line, {"cmd": "define", "name": name, "super": above, "slots": slots})
    kept.catch_up()
    return reply


def reparent(kept, line, name, above):
    reply = told(kept, line, {"cmd": "reparent", "class": name, "super": above})
    kept.catch_up()
    return reply
