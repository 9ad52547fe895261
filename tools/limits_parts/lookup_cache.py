"""The lookup cache, which has 1,024 entries: what was found for a selector, a class, and for a super send the class that holds it.

Class B is below A, which has methods that answer their receiver. Three methods of B send their selectors, one of them to self and two
to super. What `go` finds of them fills the cache just up to its last entry. The three are installed again, so that their sites are
empty: the cache answers all of them, and what was looked up longest ago is again that of `go`, and then that of the first method.
"""

from typing import NamedTuple

from scripts_parts.commands import actor, answer, define, made, method
from scripts_parts.limits import name

from . import most
from .session import Session, site

TO_SUPER = 250
# Beside the dispatch of `go` and its three sends.
TO_SELF = most.CACHE - 4 - 2 * TO_SUPER
ITSELF = answer({"local": 0})


class Sends(NamedTuple):
    """A method of B that sends the selectors of these numbers."""

    called: str
    numbers: range
    is_super: bool

    def source(self):
        names = [name("s", number) for number in self.numbers]
        if self.is_super:
            return f"{self.called} " + "".join(f"super {it}. " for it in names)
        return f"{self.called} ^self {' '.join(names)}"

    def steps(self):
        """A send runs two instructions of A. To super it is also pushed and dropped."""
        return 2 + len(self.numbers) * (5 if self.is_super else 3)

    def sites(self, numbers=None, ways=None):
        """What its sites say where the lookup cache had all, or where they were found in these ways."""
        numbers = self.numbers if numbers is None else numbers
        ways = ways or ["by_global"] * len(numbers)
        return [site(name("s", number), is_super=self.is_super, **{way: 1}) for number, way in zip(numbers, ways)]


def parts(is_super_first):
    to_super = [
        Sends("first", range(TO_SUPER), True),
        Sends("second", range(TO_SUPER, 2 * TO_SUPER), True),
    ]
    to_self = Sends("third", range(TO_SELF), False)
    return [*to_super, to_self] if is_super_first else [to_self, *to_super]


def fills(session, sends):
    """All is found by walks."""
    session.edit(define("A"))
    session.edit(define("B", "A"))
    for number in range(max(TO_SELF, 2 * TO_SUPER)):
        session.edit(method("A", f"{name('s', number)} ^self"))
    session.edit(method("B", "go " + "".join(f"self {it.called}. " for it in sends)))
    for one in sends:
        session.edit(method("B", one.source()))
    session.ask(actor("B"), made(0))
    # The dispatch, three sends that are pushed and dropped, and the answer.
    session.turn("go", steps=1 + 9 + 2 + sum(it.steps() for it in sends), ending=ITSELF)
    for one in sends:
        session.sites("B", one.called, one.sites(ways=["walk"] * len(one.numbers)))


def has_all(session, sends):
    """New sites have nothing, and the cache has all."""
    for one in sends:
        session.edit(method("B", one.source()))
    session.turn("go", steps=1 + 9 + 2 + sum(it.steps() for it in sends), ending=ITSELF)
    for one in sends:
        session.sites("B", one.called, one.sites())
    session.sites("B", "go", [site(it.called, walk=2) for it in sends])


def drops_the_last(session, first):
    """Three further look-ups drop three entries: the dispatch of `more` that of `go`, and two of isNil that of the first method and that
    of its first send. So the second send is found, and the first one is not: it drops that of the third."""
    asked = [first.numbers[place] for place in (1, 0, 3, 2)]
    sends = Sends("more self isNil isNil.", asked, first.is_super)
    session.edit(method("B", sends.source()))
    # Beside the sends, there are the dispatch and four instructions.
    session.turn("more", steps=1 + 4 + sends.steps(), ending=ITSELF)
    found = sends.sites(asked, ["by_global", "walk"] * 2)
    session.sites("B", "more", [site("isNil", walk=1)] * 2 + found)


def lookup_cache(program):
    for is_super_first in (False, True):
        session = Session(f"lookup_cache: {is_super_first}")
        sends = parts(is_super_first)
        fills(session, sends)
        has_all(session, sends)
        drops_the_last(session, sends[0])
        program.play(session)
    return f"{most.CACHE:,} entries, {2 * TO_SUPER} of super sends"


TRIALS = (lookup_cache,)
