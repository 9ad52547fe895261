"""How the image does, in numbers: what `:status` shows."""

from .known import KERNEL
from .values import table

# So many names there may be (docs/LIMITS.md).
NAMES = 8_192


def status(session, rest):
    told = session.turns.ask({"cmd": "status"})
    session.tell(table(list(rows(told, session.image.is_served))))


def rows(told, is_served):
    """What is counted, and how many there are, with what is left of a limit. A script has one session and one thread."""
    left = told["history_most"] - told["history"]
    yield ["actors", f"{told['actors']:,}"]
    yield ["classes", f"{told['classes']:,}, with {len(KERNEL)} of the kernel"]
    yield ["edits", f"{told['edits']:,}, and {told['edits_left']:,} more can be made"]
    yield ["history", f"{told['history']:,} of {told['history_most']:,} items; {left:,} are left, and :checkpoint empties it"]
    yield ["names", f"{told['names']:,} of {NAMES:,}: selectors and symbols"]
    yield ["posts", f"{told['posts']:,}"]
    yield ["steps", f"{told['steps']:,}"]
    yield ["failed turns", f"{told['faults']:,} since the last checkpoint, or since the image was loaded"]
    if is_served:
        yield ["sessions", f"{told['sessions']:,}, with this one"]
        yield ["workers", f"{told['workers']:,}"]
