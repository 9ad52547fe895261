"""What is left of a method that was removed: messages that wait and ask for it, and turns that run it."""

from itertools import islice

from . import looks
from .values import count, show

# So many actors that have something to do are looked into, and so many are named.
MOST, MOST_NAMED = 64, 10
LOOKED_INTO = f"more than {MOST} actors have something to do; the first {MOST} of them were looked into"


def left(session, name, selector):
    """The lines on what is left, in actors whose classes have no other method for it below the class that had it."""
    busy = list(islice((it for it in looks.every_actor(session) if is_busy(it)), MOST + 1))
    concerned = classes_of(session, name, selector) if busy else ()
    waiting, running = {}, []
    for it in busy[:MOST]:
        told = looks.inspect(session, it["actor"])
        asking = [of for of in messages(told) if of["selector"] == selector]
        if asking and it["class"] in concerned:
            waiting[it["actor"]] = len(asking)
        if any(looks.installed(session, frame["method"])[:2] == (name, selector) for frame in frames(told)):
            running.append(it["actor"])
    if waiting:
        one = sum(waiting.values()) == 1
        asks = "waits asks" if one else "wait ask"
        yield f"{count(sum(waiting.values()), 'message')} that {asks} for it: {named(session, list(waiting))}"
    if running:
        goes_on = "runs it, and goes on as it began" if len(running) == 1 else "run it, and go on as they began"
        yield f"{count(len(running), 'turn')} {goes_on}: {named(session, running)}"
    if len(busy) > MOST:
        yield LOOKED_INTO


def is_busy(it):
    return it["accepted"] > it["begun"] or it["phase"] in ("start", "frames")


def messages(told):
    """What an actor has not looked a method up for yet: what is pending, and a turn that begins."""
    phase = told["body"]["phase"]
    return told["pending"] + ([phase["start"]] if "start" in phase else [])


def frames(told):
    phase = told["body"]["phase"]
    return phase["frames"] if "frames" in phase else []


def classes_of(session, name, selector):
    """The classes whose objects ran the method of a class: those below it, where none between has one of its own."""
    having = looks.implementors(session, selector)
    concerned = {name}
    left_over = {it["name"]: it["super"] for it in looks.classes(session) if it["name"] not in having}
    while more := {one for one, above in left_over.items() if above in concerned} - concerned:
        concerned |= more
    return concerned


def named(session, actors):
    """Some actors by their names, or their numbers."""
    shown = [show({"ref": it}, session.known) for it in actors[:MOST_NAMED]]
    more = len(actors) - MOST_NAMED
    return ", ".join(shown) + (f" and {count(more, 'other')}" if more > 0 else "")
