"""As many turns that failed as are kept, each with all that an actor may have."""

from scripts_parts.commands import actor, answer, define, fault, made, method
from scripts_parts.limits import slots
from scripts_parts.running import Wrong

from . import most
from .frames import DOWN, down
from .session import Session

# Each object knows the one that was made before it.
LINK = "link: it {last} := it"
FILL = "fill: n | o i | i := 0. [i < n] whileTrue: [o := Wide new. o link: {last}. {last} := o. i := i + 1]. ^i"
# The steps of an object, among them the five of `link:`; and of the rest of the turn, with its beginning.
EACH, REST = 26, 12
# The bytes that a turn which failed may take.
PLACE = 1_400_000
# So many more than are kept take no more, but for the history.
MORE, ROOM = 64, 0.1


def failing(count):
    """An actor with all objects, each with all instance variables, of which so many turns fail with all frames, each with all variables."""
    names = slots("s", most.VARIABLES)
    session = Session(f"{count} turns that fail")
    session.edit(define("Wide", slots=names))
    for source in (LINK, FILL, down(most.VARIABLES - 1)):
        session.edit(method("Wide", source.format(last=names[-1])))
    session.ask(actor("Wide"), made(0))
    others = most.OBJECTS - 1
    session.turn("fill:", others, steps=EACH * others + REST, ending=answer(others))
    for _ in range(count):
        session.turn("down:", most.FRAMES + 1, steps=1 + DOWN * most.FRAMES, ending=fault("stackOverflow"))
    return session


def memory_of_faults(program):
    """64 such turns, and as many again."""
    one, all_kept, more = (program.measured(failing(count)) for count in (1, most.FAULTS, most.FAULTS + MORE))
    each = (all_kept - one) / (most.FAULTS - 1)
    if each > PLACE:
        raise Wrong(f"a turn that failed takes {each:,.0f} bytes, over {PLACE:,}")
    if more > (1 + ROOM) * all_kept:
        raise Wrong(f"{MORE} turns more than are kept take {more - all_kept:,.0f} bytes more")
    return f"{each:,.0f} bytes for each of {most.FAULTS} turns that failed; {more - all_kept:,.0f} more behind {MORE} further ones"


TRIALS = (memory_of_faults,)
