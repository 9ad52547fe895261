"""A history that is full, and counts that can rise no more."""

from scripts_parts.commands import accepted, actor, answer, closed, close, define, made, method, outcome, post, ran, remove, reparent
from scripts_parts.commands import replace, run

from . import most
from .program import same
from .session import Session

FULL = "HistoryFull"
ENDLESS = "endless [true] whileTrue: [nil]"


def has_no_room(session):
    """All that would be an item is refused, and what is refused for itself is refused so."""
    for command in (
        run(1),
        actor(),
        close(),
        post(session.posts + 1, "endless"),
        define("N"),
        method("M", "a ^2"),
        replace("M", 2, "a ^2"),
        remove("M", "a"),
        reparent("M", "Object"),
    ):
        session.refuses(command, FULL)
    session.refuses(define("M"), "ClassExists")
    session.refuses(replace("M", 3, "a ^2"), "Stale", version=2)
    session.refuses(actor("N"), "UnknownClass")
    session.refuses(post(session.posts, "endless"), "Old", last=session.posts)
    session.refuses(outcome(1, 7), "UnknownActor")
    session.sites("M", "a", [])


def fills(session):
    """Three edits, an actor, a message and its beginning, and quanta of one step, up to the last item."""
    session.edit(define("M"))
    session.edit(method("M", "a ^1"))
    session.edit(method("M", ENDLESS))
    session.ask(actor("M"), made(0))
    session.post("endless")
    left = most.HISTORY - 6
    session.run(left, left, most=left)
    has_no_room(session)
    session.refuses(outcome(1), "Pending")


def ends_with_a_beginning(before):
    """A session on the file, whose history is empty. Where there is room for one item more, a message that is begun takes it, and its
    quantum has none."""
    session = Session("full_history, loaded", before, quantum=1)
    session.refuses(outcome(0), "Pending")
    session.ask(actor("M"), made(1))
    # An actor, these quanta, a message and a beginning.
    left = most.HISTORY - 3
    session.run(left, left, most=left)
    session.post("a", to=1)
    session.refuses(run(1), FULL)
    session.refuses(outcome(1, 1), "Pending")
    has_no_room(session)
    return session


def is_emptied(session):
    """A checkpoint leaves both turns where they stand, and then there is room for all that was refused."""
    session.checkpoint()
    for number in (0, 1):
        session.refuses(outcome(0, number), "Pending")
    # Both actors have three quanta of one step each.
    session.run(6, 6, most=6)
    session.ask(outcome(0, 1), answer(1))
    for edit in (define("N"), method("M", "a ^2"), remove("M", "a"), reparent("M", "Object")):
        session.edit(edit)
    session.ask(actor(), made(2))
    session.post("endless")
    session.ask(close(), closed())


def full_history(program):
    session = Session("full_history", quantum=1)
    fills(session)
    program.keep(session)
    same("the steps of the file", program.image()["steps"], session.steps)
    loaded = ends_with_a_beginning(session)
    is_emptied(loaded)
    program.keep(loaded)
    same("the steps of the file", program.image()["steps"], loaded.steps)
    return f"{most.HISTORY:,} items, twice"


def counted(**counts):
    """An image with one actor that counted so many posts or steps."""
    body = {"objects": [{"class": "Object", "slots": []}], "phase": "fresh"}
    one = {"body": body, "capacity": most.MESSAGES, "class": "Object", "last": 0, "open": True, "pending": []}
    edits = [{"install": {"class": "Object", "source": "a ^3 + 4 * 2"}}]
    return {"actors": [one], "edits": edits, "format": 2, "names": [], "posts": 0, "senders": [], "steps": 0, **counts}


def counts_of_an_image(program):
    """The last post and the last step that an image counts, and one more. Posts are counted by themselves, and so are steps."""
    posts = Session("posts")
    posts.ask(post(1, "a"), accepted(1))
    posts.refuses(post(2, "a"), FULL)
    posts.ask(run(), ran(1, 7))
    posts.ask({"cmd": "checkpoint"}, {"ok": {"posts": most.COUNTED, "steps": 7}})
    posts.refuses(post(2, "a"), FULL)
    posts.ask(outcome(0), answer(14))
    posts.ask(actor(), made(1))
    program.put(counted(posts=most.COUNTED - 1))
    program.keep(posts)
    steps = Session("steps", quantum=1)
    steps.ask(post(1, "a"), accepted(1))
    steps.ask(run(5), ran(5, 5))
    for turn in (1, 0):
        steps.refuses(run(1), FULL)
        steps.refuses(outcome(turn), "Pending")
        steps.ask({"cmd": "checkpoint"}, {"ok": {"posts": 1, "steps": most.COUNTED}})
    steps.ask(post(2, "a"), accepted(1))
    program.put(counted(steps=most.COUNTED - 5))
    program.keep(steps)
    same("the steps of the file", program.image()["steps"], most.COUNTED)
    return f"{most.COUNTED:,} posts, and as many steps"


TRIALS = (full_history, counts_of_an_image)
