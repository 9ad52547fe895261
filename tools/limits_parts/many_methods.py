"""As many edits as there may be, most of which are methods of one class."""

from scripts_parts.commands import actor, answer, define, made, method, outcome, remove, reparent, replace
from scripts_parts.limits import name

from . import most
from .session import Session, site

METHODS = 4000
BATCH = 1000
# Of a method: the dispatch and four instructions.
STEPS = 5


def source(number, more=1):
    return f"{name('m', number)} ^{number} + {more}"


def has_no_room(session, edits):
    """One edit more is refused, of each kind; what is refused for itself is refused so."""
    changed = source(0, 2)
    for command in (method("M", changed), replace("M", 2, changed), define("N"), remove("M", name("m", 1)), reparent("M", "Object")):
        session.refuses_more(command, "edits")
    session.refuses(replace("M", 1, changed), "Stale", version=2)
    session.refuses(define("M"), "ClassExists")
    session.refuses(remove("M", "other"), "NoSuchMethod")
    session.refuses(reparent("M", "M"), "Cycle")
    session.sites("M", name("m", 1), [site("+")])
    assert session.edits == edits


def first_methods(count):
    """As many edits as a run may have: a class, and methods. Then the first and the last are run and asked for their sites. A checkpoint
    brings no room for edits."""
    session = Session("first_methods", capacity=most.MESSAGES)
    session.edit(define("M"))
    for number in range(count):
        session.edit(method("M", source(number)))
    has_no_room(session, most.EDITS_OF_A_RUN)
    session.ask(actor("M"), made(0))
    for number, found in ((0, site("+", walk=1)), (count - 1, site("+", by_global=1))):
        session.turn(name("m", number), steps=STEPS, ending=answer(number + 1))
        session.sites("M", name("m", number), [found])
    session.checkpoint()
    has_no_room(session, most.EDITS_OF_A_RUN)
    session.turn(name("m", 0), steps=STEPS, ending=answer(1))
    return session


def runs_all(session):
    """Each of the methods runs once. The first send of + walks, and the lookup cache has it for all others."""
    for first in range(0, METHODS, BATCH):
        numbers = range(first, min(first + BATCH, METHODS))
        for number in numbers:
            session.post(name("m", number))
        session.run(len(numbers), STEPS * len(numbers))
        for number in numbers[-most.OUTCOMES :]:
            session.ask(outcome(number + 1), answer(number + 1))
        session.refuses(outcome(numbers[-1] + 1 - most.OUTCOMES), "Expired")
    session.sites("M", name("m", 0), [site("+", walk=1)])
    for number in range(1, METHODS):
        session.sites("M", name("m", number), [site("+", by_global=1)])


def other_methods(before, count):
    """The other methods, and the last one of them again until there are as many edits as there may be."""
    session = Session("other_methods", before)
    for number in range(count, METHODS):
        session.edit(method("M", source(number)))
    runs_all(session)
    last = METHODS - 1
    for more in range(session.edits + 1, most.EDITS + 1):
        session.edit(method("M", source(last, more)))
    session.turn(name("m", last), steps=STEPS, ending=answer(last + most.EDITS))
    session.sites("M", name("m", last), [site("+", by_global=1)])
    session.refuses_more(method("M", source(last, 1)), "edits")
    session.turn(name("m", last), steps=STEPS, ending=answer(last + most.EDITS))
    session.sites("M", name("m", last), [site("+", by_global=1, by_site=1)])
    return session


def full_table(before):
    """A run that makes no edit, on a table that has as many as there may be. A checkpoint forgets the counts, and leaves the caches."""
    session = Session("full_table", before)
    last = METHODS - 1
    for found in (site("+", walk=1, by_site=1), site("+", by_site=2)):
        has_no_room(session, most.EDITS)
        for _ in range(2):
            session.turn(name("m", last), steps=STEPS, ending=answer(last + most.EDITS))
        session.sites("M", name("m", last), [found])
        session.checkpoint()
    return session


def methods_and_edits(program):
    count = most.EDITS_OF_A_RUN - 1
    first = first_methods(count)
    program.keep(first)
    second = other_methods(first, count)
    program.keep(second)
    program.keep(full_table(second))
    return f"{METHODS:,} methods of a class, {most.EDITS_OF_A_RUN:,} and {most.EDITS:,} edits"


TRIALS = (methods_and_edits,)
