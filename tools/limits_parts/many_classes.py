"""As many classes as there may be, in chains as deep as there may be, of which the lowest and the highest get other superclasses."""

from scripts_parts.commands import actor, answer, define, made, method, remove, reparent
from scripts_parts.limits import name

from . import most
from .session import Session, site

USERS = most.CLASSES - most.KERNEL_CLASSES
# A chain has Object too.
DEEP = most.CHAIN - 1
CHAINS = USERS // DEEP
# Of the first chain; of the second one; and a class that is in none.
TOP, LAST_BUT_ONE, BOTTOM = (name("C", number) for number in (0, DEEP - 2, DEEP - 1))
OTHER_TOP, OTHER_LAST_BUT_ONE, OTHER_BOTTOM = (name("C", number) for number in (DEEP, 2 * DEEP - 2, 2 * DEEP - 1))
ALONE = name("C", CHAINS * DEEP)
# The dispatch of `ask`, its three instructions and two of a `tag`.
STEPS = 6


def ask(session, number, tag):
    session.turn("ask", to=number, steps=STEPS, ending=answer(tag))


def chains(session):
    """Chains of 64 classes, and the others directly under Object. Four methods and three actors."""
    for number in range(USERS):
        is_first = number % DEEP == 0 or number >= CHAINS * DEEP
        session.edit(define(name("C", number), "Object" if is_first else name("C", number - 1)))
    session.refuses_more(define("More"), "classes")
    session.refuses(define("More", BOTTOM), "TooDeep")
    session.edit(method("Object", "ask ^self tag"))
    for number, of in enumerate((TOP, OTHER_TOP, ALONE)):
        session.edit(method(of, f"tag ^{number}"))
    for number, of in enumerate((BOTTOM, LAST_BUT_ONE, OTHER_BOTTOM)):
        session.ask(actor(of), made(number))
    for number, tag in ((0, 0), (1, 0), (2, 1)):
        ask(session, number, tag)
    session.sites("Object", "ask", [site("tag", walk=3, state="poly")])


def moves_the_bottom(session):
    """The lowest class of a chain goes below the last but one of another: with that one's last it would be one class too deep."""
    session.refuses(reparent(BOTTOM, OTHER_BOTTOM), "TooDeep")
    session.edit(reparent(BOTTOM, OTHER_LAST_BUT_ONE))
    ask(session, 0, 1)
    ask(session, 1, 0)


def moves_the_top(session):
    """The highest class of the chain, which is shorter by one now, goes below a class that is in no chain."""
    session.edit(reparent(TOP, ALONE))
    ask(session, 1, 0)
    session.refuses(reparent(ALONE, LAST_BUT_ONE), "Cycle")
    session.refuses(reparent(BOTTOM, LAST_BUT_ONE), "TooDeep")
    session.edit(remove(TOP, "tag"))
    ask(session, 1, 2)
    ask(session, 1, 2)
    ask(session, 2, 1)
    # Behind the removal one class was met twice, and another one once.
    session.sites("Object", "ask", [site("tag", walk=8, by_site=1, state="poly")])


def goes_on(before):
    """The same in a session on the file: nothing has room, the classes go back, and the chain is as deep as it was."""
    session = Session("many_classes, loaded", before)
    session.refuses_more(define("More"), "classes")
    for number, tag in ((0, 1), (1, 2), (2, 1)):
        ask(session, number, tag)
    session.edit(reparent(TOP, "Object"))
    session.edit(reparent(BOTTOM, LAST_BUT_ONE))
    session.refuses(reparent(TOP, ALONE), "TooDeep")
    session.edit(method(TOP, "tag ^5"))
    for number, tag in ((0, 5), (1, 5), (2, 1)):
        ask(session, number, tag)
    session.checkpoint()
    session.refuses_more(define("More"), "classes")
    ask(session, 0, 5)
    return session


def many_classes(program):
    session = Session("many_classes")
    chains(session)
    session.refuses(reparent(TOP, ALONE), "TooDeep")
    moves_the_bottom(session)
    moves_the_top(session)
    program.keep(session)
    program.keep(goes_on(session))
    return f"{most.CLASSES:,} classes, {CHAINS} chains of {most.CHAIN}"


TRIALS = (many_classes,)
