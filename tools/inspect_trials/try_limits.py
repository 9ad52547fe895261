"""Trials at the limits: a file with as many of a thing as there may be is good, and one with more is refused."""

from .try_common import refusal, same

EMPTY = {"actors": [], "edits": [], "format": 2, "names": [], "posts": 0, "senders": [], "steps": 0}
ACTOR = {"capacity": 64, "class": "Object", "last": 0, "open": True, "pending": []}


def with_edits(*edits):
    return {**EMPTY, "edits": list(edits)}


def define(name, parent="Object", slots=()):
    return {"define": {"name": name, "slots": list(slots), "super": parent}}


def install(source, class_name="Object"):
    return {"install": {"class": class_name, "source": source}}


def actor(objects=1, phase="fresh", **more):
    return {**ACTOR, "body": {"objects": [{"class": "Object", "slots": []}] * objects, "phase": phase}, **more}


def chain(count):
    """A class whose superclass chain has so many classes, itself and Object too."""
    return with_edits(*(define(f"C{place}", f"C{place - 1}" if place > 2 else "Object") for place in range(2, count + 1)))


def classes(count):
    return with_edits(*(define(f"C{place}") for place in range(count - 8)))


def slots(count):
    """Half of them are inherited."""
    names = [f"s{place}" for place in range(count)]
    return with_edits(define("A", slots=names[:32]), define("B", "A", names[32:]))


def edits(count):
    return with_edits(*[install("a ^1")] * count)


def source(count):
    return with_edits(install("a" + " " * (count - 1)))


def variables(count):
    return with_edits(install("a | " + " ".join(f"v{place}" for place in range(count)) + " |"))


def instructions(count):
    """Two for each statement, and two at the end."""
    return with_edits(install("a " + "1. " * (count // 2 - 1) + "^1" * (count % 2)))


def brackets(count):
    return with_edits(install("a ^" + "(" * count + "1" + ")" * count))


def class_name(count):
    return with_edits(define("C" * count))


def slot_name(count):
    return with_edits(define("C", slots=["s" * count]))


def actors(count):
    return {**EMPTY, "actors": [actor()] * count}


def objects(count):
    return {**EMPTY, "actors": [actor(count)]}


def capacity(count):
    return {**EMPTY, "actors": [actor(capacity=count)]}


def frames(count):
    """Each waits for the next one."""
    waiting = {"method": 0, "operands": [], "pc": 2, "receiver": None, "temps": []}
    running = {**waiting, "pc": 0}
    file = with_edits(install("loop ^self loop"))
    return {**file, "actors": [actor(phase={"frames": [waiting] * (count - 1) + [running]})]}


LIMITS = (
    (chain, 64, "edits: edits[63].define"),
    (classes, 1024, "edits: edits[1016].define"),
    (slots, 64, "edits: edits[1].define.slots"),
    (edits, 4096, "edits: edits[4096]"),
    (source, 4096, "edits: edits[0].install.source"),
    (variables, 64, "edits: edits[0].install.source"),
    (instructions, 1024, "edits: edits[0].install.source"),
    (brackets, 64, "edits: edits[0].install.source"),
    (class_name, 64, "edits: edits[0].define.name"),
    (slot_name, 64, "edits: edits[0].define.slots[0]"),
    (actors, 65536, "actors: actors"),
    (objects, 1024, "actors: actors[0].body.objects"),
    (capacity, 1024, "actors: actors[0].capacity"),
    (frames, 128, "actors: actors[0].body.phase.frames"),
)


def at_limits():
    for make, most, wanted in LIMITS:
        same((make.__name__, refusal(make(most))), (make.__name__, "good"))
        more = most + (2 if make is instructions else 1)
        same((make.__name__, refusal(make(more))), (make.__name__, wanted))
    return len(LIMITS)


def deep_source():
    """Brackets up to the end of the source: no traceback, and a source that is refused."""
    same(refusal(with_edits(install("a ^" + "(" * 4093))), "edits: edits[0].install.source")
    same(refusal(with_edits(install("a ^" + "(" * 2046 + "1" + ")" * 2046))), "edits: edits[0].install.source")
    return 2


TRIALS = (at_limits, deep_source)
