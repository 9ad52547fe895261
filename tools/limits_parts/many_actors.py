"""As many actors as there may be, of which the last ones do something."""

from scripts_parts.commands import actor, answer, define, error, fault, made, method, outcome, post

from . import most
from .program import same
from .session import Session

COUNTED = 1000
# The dispatch, three instructions, ten for each number, four for the last test, and four.
STEPS = 1 + 3 + 10 * COUNTED + 4 + 4
QUANTUM = 256
LAST, BEFORE = most.ACTORS - 1, most.ACTORS - 2


def has_no_room(session):
    session.refuses_more(actor("M"), "actors")
    session.ask(post(session.posts + 1, "one", to=most.ACTORS), error("UnknownActor"))
    session.ask(outcome(1, most.ACTORS), error("UnknownActor"))


def begins(session):
    """All actors. The last but one ends a turn, and the last one begins one that goes on."""
    session.edit(define("M"))
    session.edit(method("M", f"count | i | i := 0. [i < {COUNTED}] whileTrue: [i := i + 1]. ^i"))
    session.edit(method("M", "one ^1"))
    session.edit(method("M", "make ^M newActor"))
    for number in range(most.ACTORS):
        session.ask(actor("M"), made(number))
    has_no_room(session)
    session.post("one", to=BEFORE)
    session.post("count", to=LAST)
    session.run(2, 3 + QUANTUM, most=2)
    session.ask(outcome(1, BEFORE), answer(1))
    session.refuses(outcome(1, LAST), "Pending")


def goes_on(before):
    """The turn goes on, and ends, and has ended behind a checkpoint. A turn that asks for one actor more ends with a fault, in the step
    of the image."""
    session = Session("many_actors, loaded", before)
    session.ask(outcome(0, BEFORE), answer(1))
    for number, what in ((LAST, "Pending"), (0, "Expired")):
        session.refuses(outcome(0, number), what)
    has_no_room(session)
    left = STEPS - QUANTUM
    session.run(-(-left // QUANTUM), left)
    session.ask(outcome(0, LAST), answer(COUNTED))
    session.checkpoint()
    session.ask(outcome(0, LAST), answer(COUNTED))
    session.turn("make", to=LAST, steps=3, ending=fault("tooManyActors"))
    session.turn("one", to=LAST, steps=3, ending=answer(1))
    session.checkpoint()
    has_no_room(session)
    for number in (0, BEFORE, LAST):
        session.turn("one", to=number, steps=3, ending=answer(1))
    return session


def many_actors(program):
    session = Session("many_actors", quantum=QUANTUM)
    begins(session)
    program.keep(session)
    image = program.image()
    same("the number of actors", len(image["actors"]), most.ACTORS)
    phases = [it["body"]["phase"] for it in image["actors"]]
    same("where all but the last two stand", {str(it) for it in phases[:BEFORE]}, {"fresh"})
    same("where the last but one stands", phases[BEFORE], {"answer": 1})
    same("what the last one is in", list(phases[LAST]), ["frames"])
    program.keep(goes_on(session))
    return f"{most.ACTORS:,} actors"


TRIALS = (many_actors,)
