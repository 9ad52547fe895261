"""How turns came to end with faults: what the image keeps of them, and what `:faults` and `:why` show of that."""

import re

import actorimage

from . import advice, fault_places, kinds, looks, of_nil, shown, written
from .running import actor_of
from .turns import Turn
from .values import count, table
from .wrong import Refused, Wrong

# A turn as it is written behind a command: an actor, with a number behind it as of `:inspect`, or before it as of `:turn`.
ACTOR = r"actor\s+[0-9]{1,9}|[a-z][A-Za-z0-9]*"
ASKED = re.compile(rf"(?:(?P<before>[0-9]{{1,19}})\s+of\s+)?(?P<actor>{ACTOR})(?:\s+(?P<behind>[0-9]{{1,19}}))?")
# So many faults are kept of an image (docs/LIMITS.md).
KEPT = 64
# How many of the newest are to be listed, behind `:faults`.
NEWEST = re.compile("[1-9][0-9]{0,3}")
NONE = "no turn has ended with a fault"
NONE_OF = "no fault of actor {} is kept;  :turn of {}  tells how its last turn ended"
GONE = "what failed is not kept any more: of the newest 64 faults of the image since the last checkpoint it is"
LOST = "{} failed before step {:,}, that of the first one that is kept"
BY_JOURNAL = "; where there is a journal,  ./actorimage replay  leads back there (docs/OPERATING.md, A journal)"
SINCE = " since step {:,}, when the image had a checkpoint or was loaded"


def kept(session, after=0):
    """The faults that the image keeps of those behind a step, oldest first, with what it says of them. Refused by one that keeps none."""
    return session.turns.ask({"cmd": "faults", "after": after})


def faults(session, rest):
    """Lists the kinds of those that are kept, or one by one the newest or those of an actor."""
    number = NEWEST.fullmatch(rest)
    actor = None if number or not rest else actor_of(session, rest)
    told = kept(session)
    found = told["faults"]
    if not found:
        session.say(NONE + (SINCE.format(told["from"]) if told["from"] else " yet"))
    elif actor is not None:
        list_of_actor(session, [it for it in found if it["actor"] == actor], actor, rest)
    else:
        list_of_all(session, found, int(rest) if number else None)


def list_of_actor(session, found, actor, written):
    if found:
        session.tell(table(rows(session, found)))
    else:
        looks.actor(session, actor)
        session.say(NONE_OF.format(actor, written))


def list_of_all(session, found, newest):
    """So many of the newest one by one, or the kinds of all."""
    if newest:
        session.tell(table(rows(session, found[-newest:])))
    else:
        kinds_of = kinds.rows(session, found)
        session.tell(table(kinds_of))
        if len(kinds_of) <= len(found):
            session.say(f":faults {len(found)}  lists them one by one")
    if len(found) == KEPT and (newest or KEPT) >= KEPT:
        tell_lost(session, found[0]["step"])


def rows(session, found):
    """Faults one by one."""
    listed = [["step", "actor", "name", "class", "turn", "fault"]]
    for it in found:
        number = it["actor"]
        name = session.known.actor(number).class_name or looks.actor(session, number)
        listed.append([it["step"], number, session.known.name_of(number) or "", name, it["turn"], it["fault"]])
    return listed


def tell_lost(session, first):
    """Tells how many turns failed before the first one that is kept, if any did, and of a server what may lead back to them."""
    lost = session.turns.ask({"cmd": "status"})["faults"] - KEPT
    if lost > 0:
        session.say(LOST.format(count(lost, "turn"), first) + (BY_JOURNAL if session.image.is_served else ""))


def why(session, rest):
    """Tells of a turn of an actor, or of the actor's last one that is kept."""
    asked = ASKED.fullmatch(rest)
    actor = actor_of(session, asked["actor"])
    number = asked["before"] or asked["behind"]
    tell_of(session, Turn(actor, int(number)) if number else last_of(session, actor, asked["actor"]))


def why_newest(session):
    """Tells of the newest turn that failed, where nothing was told of before. Returns whether there is one."""
    found = [] if session.news.after is None else kept(session)["faults"]
    since = [it for it in found if it["step"] > session.news.begun]
    newest = [it for it in since if session.known.is_own(it["actor"])] or found
    if newest:
        tell_of(session, Turn(newest[-1]["actor"], newest[-1]["turn"]))
    return bool(newest)


def tell_of(session, turn):
    """Tells how a turn ended; of one that failed also what failed, and where."""
    told = session.turns.ask({"cmd": "fault", "actor": turn.actor, "turn": turn.number})
    if "fault" in told:
        session.say(f"fault {told['fault']} in {turn}")
        session.tell(lines_of(session, turn, told))
    else:
        session.tell_end(turn, told)


def asks(session, rest):
    """Whether a text that is no name of a refusal or fault names an actor, or a turn of one."""
    asked = ASKED.fullmatch(rest)
    return bool(asked) and (bool(asked["before"] or asked["behind"]) or " " in asked["actor"] or asked["actor"] in session.known.names)


def last_of(session, actor, written):
    """The last turn of an actor of those that are kept. Refused if there is no such actor."""
    turns = [it["turn"] for it in kept(session)["faults"] if it["actor"] == actor]
    if not turns:
        looks.actor(session, actor)
        raise Wrong(NONE_OF.format(actor, written))
    return Turn(actor, turns[-1])


def lines(session, told):
    """The lines for a fault that was told of before. Behind a checkpoint its turn may be another one, which has another step."""
    try:
        found = session.turns.ask({"cmd": "fault", "actor": told.turn.actor, "turn": told.turn.number})
    except Refused:
        found = {}
    is_same = found.get("fault") == told.fault and told.step in (None, found.get("step"))
    return lines_of(session, told.turn, found if is_same else {"fault": told.fault})


def lines_of(session, turn, told):
    """What failed and what that means, and the frames with their sources. Where they are not kept, how the place is found."""
    fault = told["fault"]
    if "frames" not in told:
        gone = [] if session.news.after is None else [GONE]
        return [f"{fault}: {advice.FAULTS[fault]}", *gone, *fault_places.lines(session, turn, fault)]
    failure = actorimage.failure(told)
    looks.classes(session)

    def name(number):
        return session.known.name_of(number) or f"actor {number}"

    frames = failure.lines(session.known.slots, name, written.Written(session).notes)
    means, behind = advice.FAULTS[fault], []
    if fault == "notUnderstood":
        is_nil = failure.frames and failure.send.receiver is None and not failure.send.is_super
        means, behind = of_nil.said(session, failure) if is_nil else (means, missing(session, failure))
    return [f"{failure.message(name)}: {fault}, {means}", *frames, *behind]


def missing(session, failure):
    """What was not understood by which class; where that was the message of the turn, also what the class understands."""
    name, selector = failure.send.class_name, failure.send.selector
    if failure.send.is_super:
        return [shown.missing_above(session, failure.frames[-1].holder, selector)]
    lines = [shown.missing(session, name, selector)]
    return lines if failure.frames else [*lines, f"{name} understands:  {' '.join(looks.understood(session, name))}"]
