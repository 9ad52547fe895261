"""No edit is written over unseen: what somebody has changed since it was shown or written here stays, and is shown."""

from . import looks, shown
from .wrong import Refused


def replacing(session, command, selector):
    """The command by which a method is written. Where one was shown or written here before, it takes the place of that one alone."""
    place = command["class"], selector
    if place not in session.known.shown:
        return command
    session.image.be_connected(session)
    if place not in session.known.versions:
        check(session, command, selector)
    return {**command, "cmd": "replace", "over": session.known.versions[place]}


def check(session, command, selector):
    """Refused where the class has another source now than was shown or written here. Where it has none, nothing can be lost."""
    place = command["class"], selector
    before, now = session.known.shown[place], shown.now(session, *place)
    if session.known.shown[place] not in (None, before):
        raise stale(command, now)


def check_class(session, command):
    """Refused where somebody has put a class under another one than it was shown under, or was put here."""
    name, above = command["class"], session.known.above
    there = looks.class_there(session, name)
    if there and name in above and there.parent not in (above[name], command["super"]):
        above[name] = there.parent
        raise stale(command, [there.written()])


def lost(session):
    """A line on the methods that were written here last and that the image never had, which are looked for no more then."""
    known, gone = session.known, []
    for place, written in list(known.written.items()):
        rows = versions(session, *place)
        if written.is_in(rows):
            continue
        gone.append(f"{place[0]} >> {place[1]}")
        del known.written[place]
        now = rows[-1].get("source") if rows else None
        # What was there before is there again, and nobody has changed it.
        if now in written.before:
            known.shown[place] = now
    return [f"the image does not have {', '.join(gone)} as you wrote {'it' if len(gone) == 1 else 'them'}"] if gone else []


def versions(session, name, selector):
    """Those of a class that may not be there."""
    try:
        return looks.versions(session, name, selector)
    except Refused as refused:
        if refused.reply["error"] != "UnknownClass":
            raise
        return []


def stale(command, now):
    refused = Refused(command, {"error": "Stale"})
    refused.more = now
    return refused
