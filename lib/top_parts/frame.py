"""A frame: the lines that are shown of what was done between two samples."""

import sys
from dataclasses import dataclass
from typing import Iterable, Iterator, Sequence

from actorimage import Status

from .sites import STATES, Found, Row
from .turns import Acting, Ends

# The letter of each state and its colour, as the number that a terminal takes.
LETTERS = dict(zip(STATES, ".mpM"))
COLOURS = {"empty": 90, "mono": 32, "poly": 33, "mega": 31}
FAULTY, HEAD, PLAIN = 31, 7, 0
COLUMNS = ("SENDS/S", "SENDS", "SITE", "CACHE", "WALK")
WIDTHS = (8, 8, 7, 7, 7)
# Those of an actor's numbers, behind its own and its class.
OF_ACTORS = ("TURNS/S", "TURNS", "WAITS")
# Between the columns of numbers and the last one, and the least and the most width of a name.
GAP, LEAST_NAME, MOST_CLASS = 2, 12, 30
LEGEND = "SITES, in the order of the code: "
NO_ACTORS = "no actors"
# More lines than a frame has.
UNBOUNDED = sys.maxsize


@dataclass(frozen=True)
class Piece:
    """A text in a colour."""

    text: str
    colour: int = PLAIN


Line = list[Piece]


@dataclass
class Shown:
    """What a frame tells: `seconds` are those between the samples, and `rows` those of the methods."""

    path: str
    clock: str
    seconds: float
    status: Status
    actors: Sequence[Acting]
    ends: Ends
    rows: Sequence[Row]


def frame(shown: Shown, width: int, height: int = UNBOUNDED) -> list[Line]:
    """The lines, at most so wide and so many; if there is no room for all actors and methods, those that do least are left out."""
    lines = [*head(shown), []]
    room = height - len(lines)
    lines += of_actors(shown, width, max(1, (room // 2 if shown.rows else room) - 2))
    if shown.rows:
        lines += [[], *of_methods(shown, width, max(1, height - len(lines) - 4)), legend()]
    return [cut(it, width) for it in lines]


def of_actors(shown: Shown, width: int, room: int) -> Iterator[Line]:
    """The actors: first those that were in one turn all the time, then by what ended, what waits, and their numbers."""
    actors = sorted(shown.actors, key=lambda it: (not it.is_long, -it.turns, -it.standing.waiting, it.standing.actor.number))
    if not actors:
        yield [Piece(NO_ACTORS)]
        return
    name = 9 + min(MOST_CLASS, max(len(it.standing.class_name) for it in actors))
    yield [Piece((columns("ACTOR  CLASS", OF_ACTORS, name) + " " * GAP + "LAST TURN").ljust(width), HEAD)]
    for it in actors[:room]:
        numbers = (short(it.turns / shown.seconds), short(max(0, it.ended())), short(it.standing.waiting))
        first = f"{it.standing.actor.number:5}  {it.standing.class_name}"
        yield [Piece(columns(first[:name], numbers, name) + " " * GAP), Piece(it.doing(), FAULTY if it.standing.fault else PLAIN)]
    if room < len(actors):
        yield [Piece(f"and {len(actors) - room:,} more that do less")]


def of_methods(shown: Shown, width: int, room: int) -> Iterator[Line]:
    longest = max(LEAST_NAME, width - sum(WIDTHS) - GAP - 8)
    name = 1 + min(max(LEAST_NAME, *(len(row.name) for row in shown.rows)), longest)
    yield [Piece((columns("METHOD", COLUMNS, name) + " " * GAP + "SITES").ljust(width), HEAD)]
    yield from (line(row, shown.seconds, name, width) for row in shown.rows[:room])
    if room < len(shown.rows):
        yield [Piece(f"and {len(shown.rows) - room} more that send less")]


def head(shown: Shown) -> Iterator[Line]:
    ends, status = shown.ends, shown.status
    yield [Piece(f"{shown.path}: {shown.seconds:.1f} seconds up to {shown.clock}")]
    room = f"history: {status.history:,} of {status.history_most:,} items; edits left: {status.edits_left:,}"
    yield [Piece(f"{room}; {count(status.sessions, 'session')}")]
    turns = f"turns: {short(ends.turns / shown.seconds)} a second, of {count(len(shown.actors), 'actor')}"
    names = ", ".join(f"{name} {number:,}" for name, number in ends.faults.most_common())
    known = sum(ends.faults.values())
    told = "" if known == ends.failed else f" in the newest {known:,} of {ends.failed:,}"
    in_all = f"; {status.faults:,} since the last checkpoint" if status.faults else ""
    yield [Piece(turns + "; "), Piece(f"faults: {names or 'none'}{told}", FAULTY if ends.failed else PLAIN), Piece(in_all)]
    yield from ([Piece(it)] for it in ends.newest)


def legend() -> Line:
    pieces = [Piece(LEGEND)]
    for state in STATES:
        pieces += [Piece(LETTERS[state], COLOURS[state]), Piece(f" {state}  ")]
    return pieces


def line(row: Row, seconds: float, name: int, width: int) -> Line:
    if row.why:
        return [Piece(row.name[:name].ljust(name + 1)), Piece(row.why, FAULTY)]
    if not row.states:
        return [Piece(row.name[:name].ljust(name + 1) + "sends nothing")]
    numbers = (short(row.now.sends / seconds), short(row.all.sends), *shares(row.now))
    pieces = [Piece(columns(row.name[:name], numbers, name) + " " * GAP)]
    return pieces + states(row.states, width - len(pieces[0].text))


def columns(first: str, others: Iterable[str], name: int) -> str:
    return first.ljust(name) + "".join(text.rjust(width) for text, width in zip(others, WIDTHS))


def shares(found: Found) -> Iterator[str]:
    """The parts that the sites answered, the lookup cache and the walk; nothing where nothing was sent."""
    for part in (found.site, found.lookup_cache, found.walk):
        yield f"{100 * part / found.sends:.1f}%" if found.sends else "-"


def states(of_sites: Sequence[str], room: int) -> Line:
    """A letter for each site, as far as there is room."""
    more = f"+{len(of_sites) - room + 5}"
    fits = of_sites if len(of_sites) <= room else of_sites[: max(0, room - 5)]
    pieces = [Piece(LETTERS.get(it, "?"), COLOURS.get(it, PLAIN)) for it in fits]
    return pieces if len(fits) == len(of_sites) else [*pieces, Piece(more)]


def short(number: float) -> str:
    """A number in at most six letters, as 999, 12.3k or 4.56M."""
    if number < 1000:
        return f"{number:.0f}" if number >= 10 or number == int(number) else f"{number:.1f}"
    for unit in "kMGTP":
        number /= 1000
        if number < 999.5:
            return f"{number:.{2 if number < 9.995 else 1 if number < 99.95 else 0}f}{unit}"
    return f"{number:.0f}P"


def count(number: int, thing: str) -> str:
    return f"{number:,} {thing}" + ("" if number == 1 else "s")


def cut(pieces: Line, width: int) -> Line:
    """A line of at most so many letters."""
    found: Line = []
    for piece in pieces:
        text = piece.text[: max(0, width)]
        width -= len(text)
        if text:
            found.append(Piece(text, piece.colour))
    return found


def as_text(pieces: Line) -> str:
    return "".join(piece.text for piece in pieces).rstrip()


def as_coloured(pieces: Line) -> str:
    return "".join(f"\x1b[{it.colour}m{it.text}\x1b[0m" if it.colour else it.text for it in pieces)
