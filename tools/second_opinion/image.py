"""The image: what each command of a script answers."""

from collections import Counter

from smalltalk.language import BadSource, LARGEST_NUMBER, LONGEST_WAIT, MOST_ACTORS, MOST_COUNTED, MOST_RESULTS, arguments_of, is_selector
from smalltalk.values import NIL, Value, boolean

from .classes import Classes, Refused
from .failing import Failures
from .inspecting import inspected
from .looking import LOOKS, actors, look, status
from .machine import Actor, Message

QUANTA = 1000
# What the second reader calls an epoch, behind so many checkpoints. What the program calls it is not known before `status` tells it.
EPOCH = "epoch %d"
# Each of these that is accepted is an item of the history.
ITEMS = ("define", "method", "replace", "remove", "reparent", "actor", "post", "close")


class TooManySteps(Exception):
    """The steps that an image may take are over."""


class Image:
    """`numbers` has the last number of each client that has sent a message; `ready` has the numbers of the actors that are in a
    turn or have a message pending; `patience` is the number of steps
    that a run may take, where there is one. `posts` and `steps` are all that were ever counted; `stands` has the numbers of the
    actors that had begun a turn before the last checkpoint: the last one of these is turn 0. `sent` has methods with the sends of their
    call sites since then, by the places in their code. `items` are those of the history, `checkpoints` how many there were, `told` the
    epochs that a `status` told, and `loaded` the edits that a file brought. `taking` is the number of the step that is being taken."""

    def __init__(self, quantum=256, capacity=64, patience=None):
        self.quantum = quantum
        self.capacity = capacity
        self.patience = patience
        self.classes = Classes()
        self.actors = []
        self.numbers = {}
        self.ready = set()
        self.stands = set()
        self.posts = self.steps = 0
        self.sent = {}
        self.last = -1
        self.installed = None
        self.items = self.checkpoints = self.loaded = 0
        self.told = set()
        self.taking = 0
        self.failures = Failures()

    def reply(self, command):
        """The reply to a command of those that the scripts here have: a definition, a method and an actor name a class that is
        there."""
        reply = self.answer(command)
        self.items += command["cmd"] in ITEMS and "ok" in reply
        return reply

    def answer(self, command):
        if command["cmd"] in LOOKS:
            return look(self.classes, command)
        if command["cmd"] == "actors":
            return {"ok": actors(self, command)}
        return getattr(self, command["cmd"])(command)

    def define(self, command):
        self.classes.define(command["name"], command["super"], command["slots"])
        return {"ok": {"version": self.classes.edits}}

    def method(self, command):
        try:
            self.installed = self.classes.install(command["class"], command["source"].encode())
        except (Refused, BadSource) as it:
            return it.reply()
        return {"ok": {"version": self.classes.edits}}

    def replace(self, command):
        """A `method`, if it is over the present version."""
        if command["over"] > LARGEST_NUMBER:
            return {"error": "BadCommand"}
        try:
            self.classes.check_version(command["class"], command["source"].encode(), command["over"])
        except (Refused, BadSource) as it:
            return it.reply()
        return self.method(command)

    def remove(self, command):
        try:
            self.classes.remove(command["class"], command["selector"])
        except Refused as refused:
            return refused.reply()
        return {"ok": {"version": self.classes.edits}}

    def reparent(self, command):
        try:
            self.classes.reparent(command["class"], command["super"])
        except Refused as refused:
            return refused.reply()
        return {"ok": {"version": self.classes.edits}}

    def actor(self, command):
        number = self.new_actor(self.classes.numbers[command["class"]])
        return {"error": "TooMany", "what": "actors"} if number is None else {"ok": {"actor": number}}

    def new_actor(self, class_number):
        """The number of a new actor; None where there are as many as there may be."""
        if len(self.actors) >= MOST_ACTORS:
            return None
        self.actors.append(Actor(len(self.actors), class_number, self))
        return len(self.actors) - 1

    def post(self, command):
        number, selector, arguments = command["actor"], command["selector"], command["args"]
        if any(isinstance(argument, dict) and "local" in argument for argument in arguments):
            return {"error": "BadCommand"}
        unread = self.unread(selector, arguments)
        if unread:
            return {"error": unread}
        if number >= len(self.actors):
            return {"error": "UnknownActor"}
        if arguments_of(selector) != len(arguments) or not all(self.names_something(argument) for argument in arguments):
            return {"error": "BadArguments"}
        sender, seq = command["sender"], command["seq"]
        last = self.numbers.get(sender, 0)
        if seq <= last:
            return {"error": "Old", "last": last}
        refused = self.refusal(number)
        if refused:
            return {"error": refused}
        if self.posts >= MOST_COUNTED:
            return {"error": "HistoryFull"}
        self.deliver(number, Message(selector, [self.value(argument) for argument in arguments], sender, seq))
        self.numbers[sender] = seq
        self.posts += 1
        return {"ok": {"turn": self.actors[number].accepted}}

    def close(self, command):
        if command["actor"] >= len(self.actors):
            return {"error": "UnknownActor"}
        return {"ok": {}} if self.close_mailbox(command["actor"]) else {"error": "Closed"}

    def close_mailbox(self, number):
        """Whether the actor's mailbox was open until now. What is pending stays."""
        was_open = self.actors[number].is_open
        self.actors[number].is_open = False
        return was_open

    def unread(self, selector, arguments):
        """What is wrong with the first text that says nothing; None where all are read. The names before it have their numbers then."""
        if not is_selector(selector):
            return "BadName"
        self.classes.names.add([selector])
        for argument in arguments:
            if isinstance(argument, dict) and not is_selector(argument.get("sym", selector)):
                return "BadName"
            if isinstance(argument, dict) and "class" in argument and argument["class"] not in self.classes.numbers:
                return "UnknownClass"
            if isinstance(argument, dict) and "sym" in argument:
                self.classes.names.add([argument["sym"]])
        return None

    def names_something(self, argument):
        return not isinstance(argument, dict) or argument.get("ref", -1) < len(self.actors)

    def refusal(self, number):
        """Why the actor's mailbox takes no message; None where it does."""
        actor = self.actors[number]
        if not actor.is_open:
            return "Closed"
        return "Full" if len(actor.pending) >= actor.capacity else None

    def deliver(self, number, message):
        """Whether the actor's mailbox takes the message, which is in it then."""
        if self.refusal(number):
            return False
        actor = self.actors[number]
        actor.pending.append(message)
        actor.accepted += 1
        self.ready.add(number)
        return True

    def run(self, command):
        taken = steps = 0
        while taken < command.get("quanta", QUANTA):
            actor = self.next_ready()
            if actor is None:
                break
            taken += 1
            count = self.take_quantum(actor)
            if count is None:
                return {"error": "HistoryFull"}
            steps += count
            if self.patience is not None and steps > self.patience:
                raise TooManySteps
        return {"ok": {"quanta": taken, "steps": steps}}

    def next_ready(self):
        """The first ready actor after the last that had a quantum; after the highest number comes 0."""
        if not self.ready:
            return None
        self.last = min(self.ready, key=lambda number: (number <= self.last, number))
        return self.actors[self.last]

    def take_quantum(self, actor):
        """The steps that a quantum took: as many as it may, fewer if the turn ends or comes to an outer step. That
        step it takes too, and ends then. None where the image cannot count so many more: then the turn has begun, and that is all."""
        if not actor.in_turn():
            actor.begin()
            self.items += 1
        if self.steps + self.quantum >= MOST_COUNTED and self.passes(actor):
            return None
        steps = 0
        while steps < self.quantum and actor.in_turn() and not actor.at_outer_step():
            steps += 1
            self.take_step(actor, self.steps + steps)
        if actor.at_outer_step():
            steps += 1
            self.take_step(actor, self.steps + steps)
        if not actor.is_ready():
            self.ready.discard(actor.number)
        self.steps += steps
        self.items += 1
        return steps

    def take_step(self, actor, number):
        self.taking = number
        actor.step()

    def passes(self, actor):
        """Whether the steps of the actor's next quantum are more than can be counted. The actor stays as it is."""
        before, steps, sent, failures = actor.body(), self.steps, self.sent, self.failures
        self.sent, self.failures = {}, Failures()
        for _ in range(self.quantum):
            if actor.in_turn() and not actor.at_outer_step():
                actor.step()
                steps += 1
        steps += actor.at_outer_step()
        actor.message, actor.objects, actor.frames, actor.results = before
        self.sent, self.failures = sent, failures
        return steps > MOST_COUNTED

    def checkpoint(self, command):
        """Turns are numbered from here on: 0 is the one that an actor is in, or else the last that it ended."""
        self.stands = {actor.number for actor in self.actors if actor.in_turn() or actor.results}
        self.sent = {}
        self.items = 0
        self.failures = Failures(self.steps)
        self.checkpoints += 1
        for actor in self.actors:
            actor.forget()
        return {"ok": {"posts": self.posts, "steps": self.steps}}

    def save(self, command):
        """There is no file to save in."""
        return {"error": "BadArguments"}

    def copy(self):
        """An image that goes its own way from here, with the same classes. All actors are at rest."""
        assert not self.ready, "an actor is not at rest"
        twin = Image(self.quantum, self.capacity, self.patience)
        twin.classes = self.classes
        twin.last = self.last
        twin.actors = [actor.copy(twin) for actor in self.actors]
        twin.numbers = dict(self.numbers)
        return twin

    def count(self, method, place):
        """Counts a send."""
        _, sends = self.sent.setdefault(id(method), (method, Counter()))
        sends[place] += 1

    def stats(self, command):
        """The sends of the call sites of a class's own method. How they were found is not known here."""
        if command["class"] not in self.classes.numbers:
            return {"error": "UnknownClass"}
        if not is_selector(command["selector"]):
            return {"error": "BadName"}
        method = self.classes.all[self.classes.numbers[command["class"]]].methods.get(command["selector"])
        if method is None:
            return {"error": "NoSuchMethod"}
        _, sends = self.sent.get(id(method), (None, Counter()))
        sites = [(place, it) for place, it in enumerate(method.code) if it.name in ("Send", "SuperSend")]
        return {"ok": {"sites": [{"selector": it.operand, "sends": sends[place], "super": it.name == "SuperSend"} for place, it in sites]}}

    def inspect(self, command):
        if command["actor"] >= len(self.actors):
            return {"error": "UnknownActor"}
        return {"ok": inspected(self, self.actors[command["actor"]])}

    def epoch(self):
        return EPOCH % self.checkpoints

    def status(self, command):
        self.told.add(self.epoch())
        return {"ok": status(self)}

    def wait(self, command):
        """A script answers at once. It cannot name an epoch before it is told."""
        if command["ms"] > LONGEST_WAIT:
            return {"error": "BadCommand"}
        if command["epoch"] == self.epoch() and self.epoch() not in self.told:
            raise LookupError(self.epoch())
        if command["epoch"] != self.epoch():
            return {"error": "Expired"}
        return self.outcome(command)

    def outcome(self, command):
        if command["actor"] >= len(self.actors):
            return {"error": "UnknownActor"}
        results = self.actors[command["actor"]].results
        if command["actor"] in self.stands:
            command = {**command, "turn": command["turn"] + 1}
        if command["turn"] == 0:
            return {"error": "Expired"}
        if command["turn"] > len(results):
            return {"error": "Pending"}
        if command["turn"] <= len(results) - MOST_RESULTS:
            return {"error": "Expired"}
        result = results[command["turn"] - 1]
        return {"ok": {"answer": self.json(result)} if isinstance(result, Value) else {"fault": result}}

    def fault(self, command):
        """What is kept of a turn that failed. Of another turn it is told how it ended."""
        told = self.failures.of_turn(command["actor"], command["turn"])
        return {"ok": told} if told else self.outcome(command)

    def faults(self, command):
        return {"ok": self.failures.behind(command["after"], self.steps)}

    def json(self, value):
        if value.kind == "class":
            return {"class": self.classes.all[value.content].name}
        names = {"symbol": "sym", "actor": "ref", "local": "local"}
        return {names[value.kind]: value.content} if value.kind in names else value.content

    def value(self, json):
        if json is None:
            return NIL
        if isinstance(json, bool):
            return boolean(json)
        if isinstance(json, int):
            return Value("integer", json)
        if "sym" in json:
            return Value("symbol", json["sym"])
        if "class" in json:
            return Value("class", self.classes.numbers[json["class"]])
        return Value("actor", json["ref"])
