"""A mailbox with as many messages as one may hold."""

from scripts_parts.commands import actor, answer, closed, close, define, error, made, method, outcome, post
from scripts_parts.script import CAPACITY

from . import most
from .program import same
from .session import Session

# The dispatch and eleven instructions.
STEPS = 12
FACTOR, MODULUS = 31, 65_521


def folded(count):
    """What is answered behind each of so many messages, which tells all before it in their order."""
    total, found = 0, []
    for number in range(count):
        total = (total * FACTOR + number) % MODULUS
        found.append(total)
    return found


def is_full(session):
    session.ask(post(session.posts + 1, "put:", args=[0]), error("Full"))


def begins(session):
    session.edit(define("M", "Object", ["sum"]))
    session.edit(method("M", "start sum := 0"))
    session.edit(method("M", f"put: n sum := sum * {FACTOR} + n \\\\ {MODULUS}. ^sum"))
    session.ask(actor("M"), made(0))
    session.turn("start", steps=6, ending=answer({"local": 0}))
    for number in range(most.MESSAGES):
        session.post("put:", number)
    is_full(session)


def takes_half(before):
    """The actor keeps its capacity, where a new one has another. What waits is numbered anew, by the load and by the checkpoints."""
    session = Session("pending_messages, loaded", before)
    half, answers = most.MESSAGES // 2, folded(most.MESSAGES)
    is_full(session)
    session.refuses(outcome(1), "Pending")
    session.checkpoint()
    is_full(session)
    session.run(half, STEPS * half, most=half)
    for turn in range(half + 1 - most.OUTCOMES, half + 1):
        session.ask(outcome(turn), answer(answers[turn - 1]))
    session.refuses(outcome(half - most.OUTCOMES), "Expired")
    session.refuses(outcome(half + 1), "Pending")
    session.checkpoint()
    session.ask(outcome(0), answer(answers[half - 1]))
    session.refuses(outcome(1), "Pending")
    session.ask(actor("M"), made(1))
    for _ in range(CAPACITY):
        session.post("start", to=1)
    session.ask(post(session.posts + 1, "start", to=1), error("Full"))
    session.ask(close(1), closed())
    return session


def takes_all(before):
    """The rest. The other actor has its own number of messages, of six steps each, and goes behind the first one in each round."""
    session = Session("pending_messages, loaded again", before)
    half, answers = most.MESSAGES // 2, folded(most.MESSAGES)
    session.run(half + CAPACITY, STEPS * half + 6 * CAPACITY)
    for turn in range(half + 1 - most.OUTCOMES, half + 1):
        session.ask(outcome(turn), answer(answers[half + turn - 1]))
    session.refuses(outcome(half - most.OUTCOMES), "Expired")
    session.ask(outcome(CAPACITY, 1), answer({"local": 0}))
    session.checkpoint()
    session.ask(outcome(0), answer(answers[-1]))
    for number in range(most.MESSAGES):
        session.post("put:", number)
    is_full(session)
    return session


def pending_messages(program):
    session = Session("pending_messages", capacity=most.MESSAGES)
    begins(session)
    program.keep(session)
    [kept] = program.image()["actors"]
    same("what waits", [it["args"] for it in kept["pending"]], [[number] for number in range(most.MESSAGES)])
    second = takes_half(session)
    program.keep(second)
    left = [len(it["pending"]) for it in program.image()["actors"]]
    same("how many messages wait", left, [most.MESSAGES // 2, CAPACITY])
    program.keep(takes_all(second))
    return f"{most.MESSAGES:,} messages"


TRIALS = (pending_messages,)
