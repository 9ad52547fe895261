"""What `:inspect` shows of an actor: its instance variables, what waits in its mailbox, and where its turn stands. The image is asked each
time, for the actor and for the sources of the methods that run."""

import re

from . import looks
from .running import actor_of
from .tokens import arguments, temporaries
from .values import a_or_an, count, show
from .wrong import Wrong

# So many messages and frames are shown, and so many objects, with so many of the variables of each.
MOST, MOST_OBJECTS, MOST_SLOTS = 10, 64, 10
ASKED = re.compile(r"(actor\s+[0-9]{1,9}|\S+)(?:\s+([0-9]{1,9}|all))?")


def inspect(session, rest):
    match = ASKED.fullmatch(rest)
    if not match:
        raise Wrong("write the name of an actor after it, or its number as in  actor 3; and behind it that of one of its objects, or all")
    name, place = match.groups()
    shown = Inspected(session, actor_of(session, name))
    if place == "all":
        session.tell(list(shown.all()))
    else:
        session.tell(list(shown.object(int(place)) if place else shown.actor(name)))


class Inspected:
    """An actor as the image tells of it."""

    def __init__(self, session, number):
        self.session, self.number = session, number
        self.told = looks.inspect(session, number)
        self.objects = self.told["body"]["objects"]

    def actor(self, name):
        """The lines for the actor; `name` is what was typed for it."""
        yield f"actor {self.number}, {a_or_an(self.told['class'])}"
        yield from self.slots(0)
        yield from self.mailbox()
        yield from self.turn()
        if len(self.objects) > 1:
            all_of_them = f",  :inspect {name} all  all" if len(self.objects) > 2 else ""
            yield f"{count(len(self.objects) - 1, 'further object')}; :inspect {name} 1  shows object 1{all_of_them}"

    def object(self, place):
        """The lines for an object of the actor's own."""
        if place >= len(self.objects):
            raise Wrong(f"actor {self.number} has {count(len(self.objects), 'object')}, numbered from 0")
        yield f"object {place} of actor {self.number}, {a_or_an(self.objects[place]['class'])}"
        yield from self.slots(place)

    def all(self):
        """A line for each of the first objects. What they hold is told by its number alone, since it stands there too."""
        looks.classes(self.session)
        yield f"actor {self.number}, {count(len(self.objects), 'object')}"
        for place, one in enumerate(self.objects[:MOST_OBJECTS]):
            named = list(zip(self.session.known.slots(one["class"]), one["slots"]))
            held = ", ".join([f"{name} {self.briefly(value)}" for name, value in named[:MOST_SLOTS]] + [".."] * (len(named) > MOST_SLOTS))
            yield f"object {place}, {a_or_an(one['class'])}" + (f": {held}" if held else "")
        yield from more(self.objects, MOST_OBJECTS)

    def briefly(self, value):
        """An object without its class."""
        return f"object {value['local']}" if isinstance(value, dict) and "local" in value else self.value(value)

    def slots(self, place):
        """The instance variables, inherited ones first."""
        one = self.objects[place]
        for name, value in zip(looks.slots(self.session, one["class"]), one["slots"]):
            yield f"  {name} = {self.value(value)}"

    def value(self, value):
        """A value, of an object the number by which it is asked for."""
        if isinstance(value, dict) and value.get("local"):
            return f"object {value['local']}, {a_or_an(self.objects[value['local']]['class'])}"
        return show(value, self.session.known, self.number)

    def message(self, selector, values):
        """A message as it is typed."""
        words = [f"{word}:" for word in selector.split(":")[:-1]] if ":" in selector else [selector]
        return " ".join(f"{word} {value}" for word, value in zip(words, values)) or selector

    def mailbox(self):
        waiting = self.told["pending"]
        yield f"mailbox: {'open' if self.told['open'] else 'closed'}, {len(waiting):,} of {count(self.told['capacity'], 'message')}"
        for it in waiting[:MOST]:
            sender = it["sender"]
            by = f"sender {sender}" if isinstance(sender, int) else self.value(sender)
            yield f"  {self.message(it['selector'], map(self.value, it['args']))}  from {by}, number {it['seq']}"
        yield from more(waiting)

    def turn(self):
        """Where the turn stands. The frames are shown from the running one on, each with the one that waits for it behind it."""
        phase = self.told["body"]["phase"]
        if phase == "fresh":
            yield "turn: none yet"
            return
        ((kind, of),) = phase.items()
        frames = of[::-1] if kind == "frames" else []
        yield f"turn {self.told['turn']}: {self.stand(kind, of, frames)}"
        yield from (f"  called by {self.frame(it)}" for it in frames[1:MOST])
        yield from more(frames)

    def stand(self, kind, of, frames):
        if frames:
            return f"runs {self.frame(frames[0])}"
        if kind == "start":
            return f"begins {self.message(of['selector'], map(self.value, of['args']))}"
        return f"fault {of}" if kind == "fault" else f"answered {self.value(of)}"

    def frame(self, frame):
        """The method of a frame with its arguments, what it runs in with the variables of that, and behind a semicolon its temporaries: as
        `:why` shows a turn that failed."""
        name, selector, source = looks.installed(self.session, frame["method"])
        taken = len(arguments(source))
        temps = self.named(temporaries(source)[0], frame["temps"][taken:])
        message = self.message(selector, map(self.in_line, frame["temps"][:taken]))
        return f"{name} >> {message}    {self.receiver(frame['receiver'])}" + (temps and f"; {temps}")

    def receiver(self, value):
        """What a method runs in, of an object with its variables."""
        if not isinstance(value, dict) or "local" not in value:
            return self.value(value)
        one = self.objects[value["local"]]
        held = self.named(self.session.known.slots(one["class"]), one["slots"])
        return self.in_line(value) + (held and f", {held}")

    def named(self, names, values):
        """Values behind their names, of many the first ones."""
        shown = [f"{name} {self.in_line(it)}" for name, it in list(zip(names, values))[:MOST_SLOTS]]
        return ", ".join(shown + [".."] * (len(values) > MOST_SLOTS))

    def in_line(self, value):
        """A value, of an object its class and its number."""
        if not isinstance(value, dict) or "local" not in value:
            return self.value(value)
        number = value["local"]
        return a_or_an(self.objects[number]["class"]) + (f" (object {number})" if number else "")


def more(found, most=MOST):
    if len(found) > most:
        yield f"  and {len(found) - most:,} more"
