"""Mailboxes that are filled and closed, the numbers of senders, and the outcomes that are kept."""

from .commands import IS_NIL, accepted, actor, answer, close, closed, define, error, made, method, outcome, post, ran, run, version
from .looks import capacity, clients, is_open, last_sent, pending, senders
from .running import run as run_script
from .script import Script

# Quanta that end all turns which are tried.
ALL = 5000
LARGEST = 2**64 - 1


def filled(script, most):
    """A first actor whose mailbox holds so many messages, and has them."""
    script.ask(actor(), made(0))
    for number in range(1, most + 1):
        script.ask(post(number), accepted(number))


def filled_by_a_client(program):
    """A full mailbox refuses a message twice, and takes it, with the same number, where its actor has begun one. It is closed once, and
    takes no message then, be it full or not. The turns of all that it took end, and there are no more."""
    for most in (1, 1024):
        script = Script(f"filled_by_a_client: {most}", capacity=most)
        filled(script, most)
        script.ask(post(most + 1), error("Full"))
        script.ask(post(most + 1), error("Full"))
        script.see(pending, most)
        script.see(capacity, most)
        script.ask(run(1), ran(1, 1))
        script.ask(post(most + 1), accepted(most + 1))
        script.see(pending, most)
        script.see(capacity, most)
        script.ask(close(), closed())
        script.see(is_open, False)
        script.ask(post(most + 2), error("Closed"))
        script.ask(run(1), ran(1, 1))
        script.ask(post(most + 2), error("Closed"))
        script.ask(close(), error("Closed"))
        script.ask(run(ALL), ran(most - 1, most - 1))
        script.ask(outcome(most + 1), answer(False))
        script.ask(outcome(most + 2), error("Pending"))
        script.see(pending, 0)
        script.see(is_open, False)
        run_script(program, script)


def own(first, count):
    """So many messages that the first actor posted, from this number on."""
    return [({"ref": 0}, number) for number in range(first, first + count)]


def fills_its_own(script, most):
    """An actor fills its mailbox with messages to itself, of which it answers the number. The last post is refused, and takes no number. A
    pass of the loop has ten steps; before the first one there are four, and the last one has four and four behind it. Each is a quantum
    but for the posts, which are the image's."""
    script.ask(post(1, "fill"), accepted(1))
    script.ask(run(9 * most + 11), ran(9 * most + 11, 10 * most + 12))
    script.ask(outcome(1), answer(most))
    script.see(pending, most)
    script.see(last_sent, most)
    script.see(senders, own(1, most))
    script.ask(run(ALL), ran(most, most))
    script.ask(post(2, "tell"), accepted(most + 2))
    script.ask(run(4), ran(4, 5))
    script.ask(outcome(most + 2), answer(True))
    script.see(last_sent, most + 1)
    script.see(senders, own(most + 1, 1))


def shuts_its_own(script, most):
    """An actor closes its mailbox in the turn after which it posts to itself: that post is refused, and takes no number."""
    script.ask(run(), ran(1, 1))
    script.ask(post(3, "shut"), accepted(most + 4))
    script.ask(run(1), ran(1, 1))
    script.ask(post(4, "tell"), accepted(most + 5))
    script.ask(run(), ran(6, 8))
    script.ask(outcome(most + 4), answer(True))
    script.ask(outcome(most + 5), answer(False))
    script.see(last_sent, most + 1)
    script.ask(post(5, "tell"), error("Closed"))


def filled_by_an_actor(program):
    """Mailboxes of one message and of 1,024 that their actor fills and closes, in quanta of one step."""
    for most in (1, 1024):
        script = Script(f"filled_by_an_actor: {most}", quantum=1, capacity=most)
        script.ask(method("Object", "fill | i | i := 0. [thisActor post: #isNil] whileTrue: [i := i + 1]. ^i"), version(1))
        script.ask(method("Object", "tell ^thisActor post: #isNil"), version(2))
        script.ask(method("Object", "shut ^thisActor close"), version(3))
        script.ask(actor(), made(0))
        fills_its_own(script, most)
        shuts_its_own(script, most)
        run_script(program, script)


# Clients, their numbers, the actors to which they post, and the replies. The numbers of a client rise over all actors.
NUMBERS = (
    (1, 0, 0, error("Old", last=0)),
    (1, 5, 0, accepted(1)),
    (1, 5, 0, error("Old", last=5)),
    (1, 5, 1, error("Old", last=5)),
    (1, 4, 1, error("Old", last=5)),
    (2, 5, 1, accepted(1)),
    (2, 6, 2, error("UnknownActor")),
    (2, 6, 0, accepted(2)),
    (1, 6, 1, accepted(2)),
    (0, 0, 0, error("Old", last=0)),
    (0, 1, 0, accepted(3)),
    (65535, LARGEST, 0, accepted(4)),
    (65535, LARGEST, 1, error("Old", last=LARGEST)),
    (65535, 1, 1, error("Old", last=LARGEST)),
    (1, LARGEST - 1, 1, accepted(3)),
    (1, LARGEST, 1, accepted(4)),
    (2, 7, 1, accepted(5)),
)
# The clients of the table that sent a message, rising, each with the last number that was accepted.
LAST_NUMBERS = [(0, 1), (1, LARGEST), (2, 7), (65535, LARGEST)]


def numbers_of_clients(program):
    script = Script("numbers_of_clients")
    script.see(clients, [])
    script.ask(actor(), made(0))
    script.ask(actor(), made(1))
    for client, number, to, reply in NUMBERS:
        script.ask(post(number, IS_NIL, client, to), reply)
    script.see(clients, LAST_NUMBERS)
    run_script(program, script)


def many_clients(program):
    """A thousand clients, each with a first number of its own."""
    script = Script("many_clients", capacity=1024)
    filled(script, 1024)
    script.ask(run(ALL), ran(1024, 1024))
    for client in range(2, 1002):
        script.ask(post(client * 3, IS_NIL, client), accepted(1023 + client))
    for client in range(2, 1002):
        script.ask(post(client * 3, IS_NIL, client), error("Old", last=client * 3))
    run_script(program, script)


def newest_outcomes(program):
    """A turn is pending until it has ended, and the newest 64 outcomes are kept."""
    script = Script("newest_outcomes")
    script.ask(actor(), made(0))
    for turn in range(1, 201):
        script.ask(outcome(turn), error("Pending"))
        script.ask(post(turn), accepted(turn))
        script.ask(outcome(turn), error("Pending"))
        script.ask(run(1), ran(1, 1))
        script.ask(outcome(turn), answer(False))
        script.ask(outcome(0), error("Expired"))
        oldest = max(1, turn - 63)
        script.ask(outcome(oldest), answer(False))
        script.ask(outcome(oldest - 1), error("Expired"))
    run_script(program, script)


def kept_outcomes(program):
    """After 64 turns, the first outcome is still there. After one turn more it is not, and the second one is."""
    script = Script("kept_outcomes")
    script.ask(define("M"), version(1))
    script.ask(method("M", "a ^1"), version(2))
    script.ask(actor("M"), made(0))
    for number in range(1, 65):
        script.ask(post(number, "a"), accepted(number))
    script.ask(run(), ran(64, 192))
    script.ask(outcome(1), answer(1))
    script.ask(post(65, "a"), accepted(65))
    script.ask(run(), ran(1, 3))
    script.ask(outcome(1), error("Expired"))
    script.ask(outcome(2), answer(1))
    script.ask(outcome(65), answer(1))
    script.ask(outcome(66), error("Pending"))
    run_script(program, script, is_cut=True)


TRIALS = (filled_by_a_client, filled_by_an_actor, numbers_of_clients, many_clients, newest_outcomes, kept_outcomes)
