"""How actors stand, and how their turns ended between two samples."""

import time
from collections import Counter, deque
from dataclasses import dataclass, field
from typing import Container, Iterable, Iterator, Optional

from actorimage import Actor, Failed, Image, Refused, Standing, Status, Turn

# The actors that are asked for at once, the outcomes that an image keeps of an actor, and how many are asked for in one sample.
PAGE, KEPT, MOST_ASKED = 4_096, 64, 4_096
IN_TURN = ("start", "frames")
# So many of the newest faults are shown, with the time at which they were seen; those of before have none.
MOST_FAULTS, BEFORE = 4, "before  "


@dataclass
class Ends:
    """How many turns ended since the last sample, and `failed` of them with a fault, of which `faults` has the names as far as they are
    known. `newest` are lines on the last faults that were seen, the newest first."""

    turns: int = 0
    failed: int = 0
    faults: Counter = field(default_factory=Counter)
    newest: list[str] = field(default_factory=list)


@dataclass(frozen=True)
class Acting:
    """An actor, how many of its turns ended since the last sample, and whether it was in one turn all the time."""

    standing: Standing
    turns: int = 0
    is_long: bool = False

    def ended(self) -> int:
        """The number of its last turn that has ended; -1 if turn 0, which stood there at a checkpoint, has not."""
        return self.standing.begun - (self.standing.phase in IN_TURN)

    def doing(self) -> str:
        """What it does, or how its last turn ended."""
        it = self.standing
        running = it.running and f"runs {it.running[0]} >> {it.running[1]}"
        said = running or {"fresh": "none yet", "start": "begins", "fault": f"fault {it.fault}"}.get(it.phase, "answered")
        return said if it.is_open else f"{said}, closed"


def standings(image: Image) -> Iterator[Standing]:
    """How all actors stand, a page after the other."""
    first = 0
    while page := image.actors(first, PAGE):
        yield from page
        first += len(page)


class Turns:
    """`given` are the numbers of the actors that are watched; if there are none, all are. `before` has them as of the last sample, in which
    the image had this `epoch`, had taken `steps` and had counted `failed` turns; `newest` are lines on the last faults."""

    def __init__(self, given: Optional[Container[int]]):
        self.given, self.before = given, {}
        self.epoch: Optional[str] = None
        self.steps = self.failed = 0
        self.newest: deque[str] = deque(maxlen=MOST_FAULTS)

    def sample(self, image: Image, status: Status) -> tuple[list[Acting], Ends]:
        """The actors, and what ended since the last sample; at first, nothing. Of an actor that was made meanwhile, all. Behind a
        checkpoint turns are numbered anew, and those since then are told."""
        is_first, is_same = self.epoch is None, status.epoch == self.epoch
        seen = [it for it in standings(image) if self.given is None or it.actor.number in self.given]
        now = [self.acting(it, self.before.get(it.actor) if is_same else None, is_first) for it in seen]
        self.epoch, self.before = status.epoch, {it.standing.actor: it for it in now}
        ends = Ends(sum(it.turns for it in now))
        if status.faults is None:
            self.take(self.asked(image, now), ends, time.strftime("%H:%M:%S"))
        else:
            told = image.faults(self.steps)
            self.take(told.failed, Ends() if is_first else ends, BEFORE if is_first else time.strftime("%H:%M:%S"))
            if self.given is None and not is_first and told.since > self.steps:
                # Some are kept no more. The image has counted them.
                ends.failed = max(ends.failed, status.faults - (self.failed if is_same else 0))
            self.steps, self.failed = told.steps, status.faults
        ends.newest = list(self.newest)
        return now, ends

    def acting(self, standing: Standing, before: Optional[Acting], is_first: bool) -> Acting:
        ended = Acting(standing).ended()
        turns = 0 if is_first else max(0, ended - (before.ended() if before else 0))
        in_turn = before is not None and before.standing.phase in IN_TURN and standing.phase in IN_TURN
        return Acting(standing, turns, in_turn and before.standing.begun == standing.begun)

    def take(self, failed: Iterable[Failed], ends: Ends, clock: str) -> None:
        """Takes note of faults, the oldest first, that were seen at a time."""
        for it in failed:
            actor = it.turn.actor
            if self.given is None or actor.number in self.given:
                ends.failed += 1
                ends.faults[it.fault] += 1
                of_class = f", {self.before[actor].standing.class_name}" if actor in self.before else ""
                self.newest.appendleft(f"{clock}  {it.fault} in turn {it.turn.number} of actor {actor.number}{of_class}")

    def asked(self, image: Image, now: list[Acting]) -> Iterator[Failed]:
        """The faults of an image that keeps none: it is asked how the newest of the turns ended."""
        news = [it for it in now if it.turns]
        each = min(KEPT, max(1, MOST_ASKED // max(1, len(news))))
        asked = [(it.standing.actor.number, it.ended() - back) for it in news for back in reversed(range(min(each, it.turns)))]
        waits = ({"cmd": "wait", "actor": actor, "epoch": self.epoch, "ms": 0, "turn": turn} for actor, turn in asked[:MOST_ASKED])
        for (actor, turn), told in zip(asked, image.ask_all(waits)):
            if not isinstance(told, Refused) and "fault" in told:
                yield Failed(Turn(Actor(actor), turn), told["fault"], 0)
