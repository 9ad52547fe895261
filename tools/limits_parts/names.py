"""As many names as there may be."""

from scripts_parts.commands import IS_NIL, actor, answer, error, made, method, post, remove, replace
from scripts_parts.limits import name

from . import most
from .program import same
from .session import Session, site

USERS = most.NAMES - most.KERNEL_NAMES
# Those of symbols that stand in one line.
AT_ONCE = 400


def has_no_room(session):
    """What needs one name more is refused; what is no name, or names nothing that is there, is refused for that."""
    symbols = [{"sym": "more"}]
    session.ask(post(session.posts + 1, IS_NIL, args=symbols), error("TooMany", what="names"))
    session.ask(post(session.posts + 1, "more"), error("TooMany", what="names"))
    session.refuses_more(method("Object", "more ^1"), "names")
    session.refuses_more(replace("Object", 0, "more ^1"), "names")
    session.refuses(replace("Object", 1, "more ^1"), "Stale", version=0)
    session.refuses_more(method("Object", "last ^self more"), "names")
    session.refuses_more(method("Object", "last ^#more"), "names")
    session.refuses(method("Object", "last ^more"), "BadSource", kind="UnknownName", offset=6)
    session.refuses(remove("Object", "more"), "NoSuchMethod")
    session.ask(post(session.posts + 1, IS_NIL, args=[{"sym": "3a"}]), error("BadName"))


def begins(session, texts):
    """All names but one are those of symbols, and the last one is that of a method."""
    for first in range(0, len(texts), AT_ONCE):
        symbols = [{"sym": text} for text in texts[first : first + AT_ONCE]]
        session.ask(post(1, IS_NIL, args=symbols), error("UnknownActor"))
    session.edit(method("Object", f"last ^#{texts[-1]} isNil"))
    has_no_room(session)
    session.ask(actor(), made(0))
    runs(session, site("isNil", walk=1))


def runs(session, found):
    """The dispatch and three instructions."""
    session.turn("last", steps=4, ending=answer(False))
    session.sites("Object", "last", [found])


def goes_on(before, texts):
    session = Session("most_names, loaded", before)
    has_no_room(session)
    runs(session, site("isNil", walk=1))
    session.checkpoint()
    has_no_room(session)
    runs(session, site("isNil", by_site=1))
    session.edit(method("Object", f"{texts[0]} ^#{texts[-1]}"))
    session.turn(texts[0], steps=3, ending=answer({"sym": texts[-1]}))
    session.edit(remove("Object", texts[0]))
    has_no_room(session)
    return session


def most_names(program):
    texts = [name("n", number) for number in range(USERS - 1)]
    session = Session("most_names")
    begins(session, texts)
    program.keep(session)
    same("the names of the file", program.image()["names"], [*texts, "last"])
    program.keep(goes_on(session, texts))
    same("the names of the file", program.image()["names"], [*texts, "last"])
    return f"{most.NAMES:,} names"


TRIALS = (most_names,)
