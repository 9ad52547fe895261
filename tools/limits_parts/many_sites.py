"""Many call sites: in one quantum, and behind one another in the caches of a worker."""

from scripts_parts.commands import actor, answer, define, made, method, outcome, remove
from scripts_parts.limits import name

from . import most
from .long_methods import chain
from .session import Session, site

SITES = 400
# Methods that are called in one quantum, those with an even number twice, and the sites of each.
CALLED, EACH = 40, 10
EDITS = 300
# Methods with 400 sites each, which are filled before a site of another one.
BEFORE = 5


def is_nil(walk=0, by_global=0, by_site=0):
    return site("isNil", walk, by_global, by_site)


def start(name_of_it):
    session = Session(name_of_it, quantum=most.STEPS)
    session.edit(define("M"))
    session.ask(actor("M"), made(0))
    return session


def one_method(session):
    """A method with 400 sites, of which the first sends to an object and all others to false. It runs twice."""
    session.edit(method("M", chain("all", "self", "isNil", SITES)))
    session.turn("all", steps=3 + SITES, ending=answer(False))
    session.sites("M", "all", [is_nil(walk=1), is_nil(walk=1)] + [is_nil(by_global=1)] * (SITES - 2))
    session.turn("all", steps=3 + SITES, ending=answer(False))
    seen_again = [is_nil(by_global=1, by_site=1)] * (SITES - 2)
    session.sites("M", "all", [is_nil(walk=1, by_site=1)] * 2 + seen_again)


def forty_methods(session):
    """Methods with ten sites each, called by one that has a site for each call. The lookup cache has isNil of both classes."""
    called = [name("s", number) for number in range(CALLED) for _ in range(2 - number % 2)]
    for number in range(CALLED):
        session.edit(method("M", chain(name("s", number), "self", "isNil", EACH)))
    session.edit(method("M", "go " + "".join(f"self {it}. " for it in called)))
    # Each call is pushed, sent and dropped, and runs a push, its sends and an answer.
    steps = 3 + len(called) * (5 + EACH)
    assert steps <= most.STEPS
    session.turn("go", steps=steps, ending=answer({"local": 0}))
    for number in range(CALLED):
        session.sites("M", name("s", number), [is_nil(by_global=1, by_site=1 - number % 2)] * EACH)
    calls = []
    for number in range(CALLED):
        first, again = site(name("s", number), walk=1), site(name("s", number), by_global=1)
        calls += [first] if number % 2 else [first, again]
    session.sites("M", "go", calls)


def sites_of_a_quantum(program):
    session = start("sites_of_a_quantum")
    one_method(session)
    forty_methods(session)
    program.play(session)
    return f"{SITES} sites of one method, {CALLED * EACH} of {CALLED}"


def behind_others(program):
    """A site that was filled behind 2,000 others answers behind 300 edits of other selectors, and so do those. Then one edit of its
    selector, in a class of which it knows nothing, has it look again."""
    session = start("behind_others")
    for number in range(BEFORE):
        session.edit(method("M", chain(name("b", number), "self", "isNil", SITES)))
        session.turn(name("b", number), steps=3 + SITES, ending=answer(False))
    session.edit(method("M", "last ^self isNil"))
    session.turn("last", steps=4, ending=answer(False))
    session.sites("M", "last", [is_nil(by_global=1)])
    for number in range(EDITS):
        edit = remove("M", name("e", number - 1)) if number % 3 == 2 else method("M", f"{name('e', number)} ^{number}")
        session.edit(edit)
    session.turn("last", steps=4, ending=answer(False))
    session.sites("M", "last", [is_nil(by_global=1, by_site=1)])
    for number in range(BEFORE):
        session.turn(name("b", number), steps=3 + SITES, ending=answer(False))
        first = is_nil(by_global=1, by_site=1) if number else is_nil(walk=1, by_site=1)
        session.sites("M", name("b", number), [first] * 2 + [is_nil(by_global=1, by_site=1)] * (SITES - 2))
    session.edit(define("N"))
    session.turn("last", steps=4, ending=answer(False))
    session.edit(method("N", "isNil ^true"))
    session.turn("last", steps=4, ending=answer(False))
    session.turn("last", steps=4, ending=answer(False))
    session.sites("M", "last", [is_nil(walk=1, by_global=1, by_site=3)])
    session.refuses(outcome(session.turns[0] + 1), "Pending")
    program.play(session)
    return f"a site behind {BEFORE * SITES:,} others and {EDITS} edits"


TRIALS = (sites_of_a_quantum, behind_others)
