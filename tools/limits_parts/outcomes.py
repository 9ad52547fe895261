"""As many outcomes as are kept, of ten thousand actors.

A turn takes two items of the history at least, its beginning and a quantum. So one history has room for 64 turns of 7,812 actors; the
messages of these wait in the file with which the session begins. A checkpoint, or a load, would forget how all but the last ended.
"""

from scripts_parts.commands import accepted, actor, answer, made, method, outcome, post
from scripts_parts.running import Wrong

from . import most
from .session import Session

ACTORS = 10_000
# The beginning of a turn and its quantum, which has three steps; and a message of a client.
ITEMS, STEPS, POSTED = 2, 3, 1
# The actors of which all turns are run, and the few items that are left.
FULL = most.HISTORY // (ITEMS * most.OUTCOMES)
SOURCE = "a: n ^n"
# The bytes that an outcome may take.
PLACE = 32
# Of each of these actors one turn ends. What it then has for that may have room for some more, but not for all that are kept.
ENDED, ROOM = 4000, 16


def sent(number, turn):
    """Each message has a number of its own, which its turn answers."""
    return number * most.OUTCOMES + turn


def file_of_messages():
    body = {"objects": [{"class": "Object", "slots": []}], "phase": "fresh"}
    actors = []
    for number in range(ACTORS):
        turns = range(1, most.OUTCOMES + 1) if number < FULL else ()
        pending = [{"args": [sent(number, turn)], "selector": "a:", "sender": 1, "seq": sent(number, turn)} for turn in turns]
        actors.append({"body": body, "capacity": most.OUTCOMES, "class": "Object", "last": 0, "open": True, "pending": pending})
    last, edits = sent(FULL - 1, most.OUTCOMES), [{"install": {"class": "Object", "source": SOURCE}}]
    return {"actors": actors, "edits": edits, "format": 2, "names": [], "posts": last, "senders": [[1, last]], "steps": 0}


def kept(session, number, first, last):
    """The outcomes of an actor from one turn to another."""
    for turn in range(first, last + 1):
        text = f'{{"actor":{number},"cmd":"outcome","turn":{turn}}}'
        session.add(text, f'{{"ok":{{"answer":{sent(number, turn)}}}}}')


def outcomes_kept(program):
    """All outcomes are asked for. A further turn of the first actor and of the last one has each lose its first outcome, and no other."""
    program.put(file_of_messages())
    session = Session("outcomes_kept")
    turns = FULL * most.OUTCOMES
    session.run(turns, STEPS * turns, most=turns)
    for number in range(FULL):
        kept(session, number, 1, most.OUTCOMES)
    session.refuses(outcome(1, FULL), "Pending")
    for number in (0, FULL - 1):
        further = most.OUTCOMES + 1
        session.ask(post(sent(FULL, number + 1), "a:", to=number, args=[sent(number, further)]), accepted(further))
        session.run(1, STEPS)
        session.refuses(outcome(1, number), "Expired")
        kept(session, number, 2, further)
    kept(session, 1, 1, most.OUTCOMES)
    program.keep(session)
    return f"{most.OUTCOMES} of {FULL:,} actors, beside {ACTORS - FULL:,} others"


def turns_of(name, count, each, chosen):
    """So many actors, and for each of them so many turns: all of them its own, or those of another."""
    session = Session(name)
    session.edit(method("Object", SOURCE))
    for number in range(count):
        session.ask(actor(), made(number))
    for part in range(count):
        to = chosen(part)
        for _ in range(each):
            session.post("a:", 1, to=to)
        session.run(each, STEPS * each)
        session.ask(outcome(session.turns[to], to), answer(1))
    return session


def taken_by_each(program, count, each):
    """The bytes for each of so many actors that so many of its turns have ended: the same turns of one of them take so much less."""
    of_all = program.measured(turns_of("turns of all", count, each, lambda part: part))
    of_one = program.measured(turns_of("turns of one", count, each, lambda part: 0))
    return (of_all - of_one) / count


def memory_of_outcomes(program):
    """Ten thousand actors, of which each ends as many turns as a history then has room for."""
    turns = (most.HISTORY - ACTORS - 1) // (ACTORS * (ITEMS + POSTED))
    each = taken_by_each(program, ACTORS, turns)
    if each > most.OUTCOMES * PLACE:
        raise Wrong(f"the outcomes of an actor take {each:,.0f} bytes, over {most.OUTCOMES} times {PLACE}")
    return f"{each:,.0f} bytes for each of {ACTORS:,} actors"


def memory_of_first_outcomes(program):
    """Actors that end a turn each."""
    each = taken_by_each(program, ENDED, 1)
    if each > ROOM * PLACE:
        raise Wrong(f"the first outcome of an actor takes {each:,.0f} bytes, over {ROOM} times {PLACE}")
    return f"{each:,.0f} bytes for each of {ENDED:,} actors"


TRIALS = (outcomes_kept, memory_of_outcomes, memory_of_first_outcomes)
