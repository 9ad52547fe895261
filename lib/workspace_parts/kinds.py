"""Faults that came in one way, each kind in one line: what failed, in which method, how often, and when first and last."""

from collections import Counter
from dataclasses import dataclass

from . import looks
from .values import a_or_an, show
from .wrong import Refused

# Of each name of a fault it is asked what failed until so many frames were told: each stackOverflow has 128. Of older ones the actor's
# class is told.
MOST_FRAMES = 1_000
HEAD = ["times", "fault", "failed", "in", "first turn", "step", "last turn", "step"]


@dataclass(frozen=True)
class Kind:
    """`failed` is the message, with the class of its receiver or with nil; `place` is the method, or the class of the actor."""

    fault: str
    failed: str
    place: str


def rows(session, found):
    """The table's rows, the kind that came last below."""
    return [HEAD, *(row(session, kind, of) for kind, of in sorted(kinds(session, found).items(), key=lambda it: it[1][-1]["step"]))]


def row(session, kind, of):
    first, last = of[0], of[-1]
    ends = [turn(session, first), first["step"], turn(session, last), last["step"]]
    return [len(of), kind.fault, kind.failed, kind.place, *ends]


def turn(session, it):
    """A turn as it is typed behind `:why`."""
    return f"{it['turn']} of {session.known.name_of(it['actor']) or 'actor {}'.format(it['actor'])}"


def kinds(session, found):
    """The faults of each kind, oldest first. The newest ones are asked for first."""
    grouped, frames = {}, Counter()
    for it in reversed(found):
        told = ask(session, it) if frames[it["fault"]] < MOST_FRAMES else {}
        frames[it["fault"]] += len(told.get("frames", ()))
        grouped.setdefault(kind_of(session, it, told), []).insert(0, it)
    return grouped


def ask(session, it):
    """How a fault came; empty where somebody has a checkpoint meanwhile."""
    try:
        return session.turns.ask({"cmd": "fault", "actor": it["actor"], "turn": it["turn"]})
    except Refused:
        return {}


def kind_of(session, it, told):
    if told.get("fault") != it["fault"] or "frames" not in told:
        name = session.known.actor(it["actor"]).class_name or looks.actor(session, it["actor"])
        return Kind(it["fault"], "", a_or_an(name))
    frames, send = told["frames"], told.get("send")
    place = f"{frames[-1]['holder']} >> {frames[-1]['selector']}" if frames else ""
    return Kind(it["fault"], message(send) if send else tested(session, told["value"]), place)


def message(send):
    """A message without its arguments. Of numbers and objects it is the class that is alike."""
    receiver = send["receiver"]
    if send["super"]:
        name = "super"
    elif receiver is None:
        name = "nil"
    else:
        name = receiver["class"] if isinstance(receiver, dict) and "class" in receiver else send["class"]
    return f"{name} {send['selector']}"


def tested(session, value):
    """What was neither true nor false. The class of an object is not told."""
    if isinstance(value, int):
        return "SmallInteger"
    return "an object" if isinstance(value, dict) and "local" in value else show(value, session.known)
