"""How an actor stands, in one word, and how much that asks for a look."""

# From the one that asks least for a look. Cells of the map that stand for several actors show the last of these.
STATES = ("fresh", "idle", "closed", "waits", "turn", "fault")
# Messages that wait, from which on a cell is stronger.
STRONGER = (1, 4, 16)


def state_of(row):
    """The state of an actor, as `actors` tells of it."""
    phase = row["phase"]
    if phase in ("start", "frames"):
        return "turn"
    if row["accepted"] > row["begun"]:
        return "waits"
    if isinstance(phase, dict) and "fault" in phase:
        return "fault"
    if not row["open"]:
        return "closed"
    return "fresh" if phase == "fresh" else "idle"


def code_of(row):
    """A number for the map: the state, and how many messages wait. The largest asks most for a look."""
    waiting = row["accepted"] - row["begun"]
    return STATES.index(state_of(row)) * (len(STRONGER) + 1) + sum(waiting >= it for it in STRONGER)


def cells(codes, most):
    """The map: at most so many letters, each for as many actors that follow one another, of which it shows the most urgent. Also how many
    actors share a cell."""
    each = max(1, -(-len(codes) // max(1, most)))
    urgent = codes if each == 1 else [max(codes[first : first + each]) for first in range(0, len(codes), each)]
    return "".join(LETTERS[it] for it in urgent), each


LETTERS = [chr(ord("A") + number) for number in range(len(STATES) * (len(STRONGER) + 1))]
