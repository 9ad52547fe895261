"""How a turn ended, or where it stands: what `:turn` tells."""

import re

import actorimage
from smalltalk.checks import read_method
from smalltalk.compiler import compile_method
from smalltalk.language import BadSource

from . import looks, written
from .running import actor_of
from .turns import Turn
from .wrong import Refused, Wrong

SENDS = ("Send", "SuperSend")


def turn(session, rest):
    match = re.fullmatch(r"(?:([0-9]{1,19})\s+)?of\s+(\S.*)", rest)
    if not match:
        raise Wrong("write which turn of which actor, as in  :turn 3 of c")
    actor = actor_of(session, match[2])
    if match[1]:
        tell(session, Turn(actor, int(match[1])))
    else:
        tell_last(session, actor)


def tell(session, which):
    end = session.turns.outcome(which)
    session.turns.forget(which)
    session.tell_end(which, end)


def tell_last(session, actor):
    """Tells of the turn that an actor is in, or was in last. Where it goes on, its frames are shown."""
    told = looks.inspect(session, actor)
    if told["turn"] is None:
        raise Wrong(f"actor {actor} has begun no turn yet")
    try:
        tell(session, Turn(actor, told["turn"]))
    except Refused as refused:
        if refused.reply["error"] == "Pending" and "frames" in told["body"]["phase"]:
            refused.more = frames(session, told)
        raise


def frames(session, told):
    """The lines for the frames of an actor's turn, as `:why` shows those of one that failed."""
    looks.classes(session)
    going_on = told["body"]["phase"]["frames"]
    shown = [frame(session, told["body"]["objects"], it, it is going_on[-1]) for it in going_on]
    failure = actorimage.failure({"fault": "", "step": 0, "value": None, "frames": shown})

    def name(number):
        return session.known.name_of(number) or f"actor {number}"

    return failure.lines(session.known.slots, name, written.Written(session).notes)


def frame(session, objects, it, is_running):
    """A frame as the image tells of those of a turn that failed."""
    holder, selector, source = looks.installed(session, it["method"])
    receiver = it["receiver"]
    own = objects[receiver["local"]] if isinstance(receiver, dict) and "local" in receiver else {"class": "", "slots": []}
    offset = place(session, holder, source, it["pc"], is_running)
    told = {"method": it["method"], "holder": holder, "selector": selector, "source": source, "temps": it["temps"], "offset": offset}
    return {**told, **own, "receiver": receiver}


def place(session, holder, source, pc, is_running):
    """Where the send stands in a source for which a frame waits; of the running frame the next one in the order of the code, if there is
    one. None where that is not known, as in an image that is another one by now."""
    classes = {name: number for number, name in enumerate(session.known.classes)}
    try:
        code = compile_method(read_method(source.encode()), session.known.slots(holder), classes).code
    except BadSource:
        return None
    sends = [it.start for it in (code[pc:] if is_running else code[pc - 1 :]) if it.name in SENDS]
    return sends[0] if sends else None
