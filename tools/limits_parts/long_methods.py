"""Methods of 1,024 instructions, with as many call sites as such a method can have."""

from scripts_parts.commands import actor, answer, define, made, method, outcome

from . import most
from .session import Session, site

METHODS = 8
# All but the first instruction, which pushes the receiver, and the last, which answers.
SITES = most.INSTRUCTIONS - 2


def chain(pattern, start, selector, count):
    """A method that sends so many messages, each to the answer to the one before it."""
    return f"{pattern} ^{start}{f' {selector}' * count}"


def sends_of_a_method(session):
    """Each send goes to a user's method of two instructions, and all answer the receiver. The first one of all walks."""
    session.edit(define("L"))
    session.edit(method("L", "a ^self"))
    session.ask(actor("L"), made(0))
    for number in range(METHODS):
        session.refuses(method("L", chain(f"g{number}", "self", "a", SITES + 1)), "BadSource", kind="TooLarge", offset=0)
        session.edit(method("L", chain(f"g{number}", "self", "a", SITES)))
        session.sites("L", f"g{number}", [site("a")] * SITES)
    for number in range(METHODS):
        first = site("a", by_global=1) if number else site("a", walk=1)
        session.turn(f"g{number}", steps=1 + 2 + 3 * SITES, ending=answer({"local": 0}))
        session.sites("L", f"g{number}", [first] + [site("a", by_global=1)] * (SITES - 1))
    for number in range(METHODS):
        first = site("a", by_global=1, by_site=1) if number else site("a", walk=1, by_site=1)
        session.turn(f"g{number}", steps=1 + 2 + 3 * SITES, ending=answer({"local": 0}))
        session.sites("L", f"g{number}", [first] + [site("a", by_global=1, by_site=1)] * (SITES - 1))


def sends_of_a_quantum(session):
    """All sends of the method are in one quantum, which ends before the answer: sites of True and of False in turn."""
    session.edit(method("L", chain("k: b", "b", "not", SITES)))
    session.post("k:", True)
    session.run(1, most.STEPS, most=1)
    session.refuses(outcome(session.turns[0]), "Pending")
    walks = [site("not", walk=1)] * 2
    session.sites("L", "k:", walks + [site("not", by_global=1)] * (SITES - 2))
    session.run(1, 1)
    session.ask(outcome(session.turns[0]), answer(SITES % 2 == 0))


def methods_of_1024_instructions(program):
    session = Session("methods_of_1024_instructions", quantum=most.STEPS)
    sends_of_a_method(session)
    sends_of_a_quantum(session)
    program.keep(session)
    loaded = Session("methods_of_1024_instructions, loaded", session)
    last = f"g{METHODS - 1}"
    loaded.sites("L", last, [site("a")] * SITES)
    # A checkpoint forgets the counts, and leaves the caches as they are.
    for ways in ([{"walk": 1, "by_site": 1}] + [{"by_global": 1, "by_site": 1}] * (SITES - 1), [{"by_site": 2}] * SITES):
        loaded.turn(last, steps=1 + 2 + 3 * SITES, ending=answer({"local": 0}))
        loaded.turn(last, steps=1 + 2 + 3 * SITES, ending=answer({"local": 0}))
        loaded.sites("L", last, [site("a", **it) for it in ways])
        loaded.checkpoint()
        loaded.sites("L", last, [site("a")] * SITES)
    program.keep(loaded)
    return f"{METHODS} methods with {SITES:,} sites"


TRIALS = (methods_of_1024_instructions,)
