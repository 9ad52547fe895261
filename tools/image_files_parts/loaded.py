"""Image files that the second implementation goes on from."""

from inspect_trials.written import Written
from second_opinion.failing import Failures
from second_opinion.machine import Frame, Message
from smalltalk.values import Value


class Loaded(Written):
    """The image that is made of a file, which is good. Turns are numbered from the file on, as they are from a checkpoint on."""

    def __init__(self, file, quantum=256, capacity=64):
        super().__init__(quantum, capacity)
        self.methods = {}
        self.classes.names.add(file["names"])
        for place, edit in enumerate(file["edits"]):
            self.edit(place, edit)
        self.loaded = self.classes.edits
        self.names = file["names"] + [name for name in self.names if name not in set(file["names"])]
        self.stands = {number for number, actor in enumerate(file["actors"]) if actor["body"]["phase"] != "fresh"}
        for part in file["actors"]:
            self.add(part)
        self.numbers = {client: last for client, last in file["senders"]}
        self.posts, self.steps = file.get("posts", 0), file.get("steps", 0)
        self.failures = Failures(self.steps)

    def edit(self, place, edit):
        [(kind, parts)] = edit.items()
        {"define": self.define, "install": self.method, "remove": self.remove, "reparent": self.reparent}[kind](parts)
        if kind == "install":
            self.methods[place] = self.installed, self.classes.numbers[parts["class"]]

    def add(self, part):
        """The actor of a part of the file."""
        number = self.new_actor(self.classes.numbers[part["class"]])
        actor = self.actors[number]
        actor.objects = []
        for one in part["body"]["objects"]:
            actor.new_object(self.classes.numbers[one["class"]])
            actor.objects[-1].slots = self.values(one["slots"])
        actor.capacity, actor.last, actor.is_open = part["capacity"], part["last"], part["open"]
        actor.pending.extend(map(self.message_of, part["pending"]))
        actor.accepted = len(actor.pending)
        self.stand(actor, part["body"]["phase"])
        if actor.is_ready():
            self.ready.add(number)

    def stand(self, actor, phase):
        """Puts the turn where it stands."""
        if phase == "fresh":
            return
        [(kind, what)] = phase.items()
        if kind == "start":
            actor.message = self.message_of(what)
        elif kind == "frames":
            actor.frames = [self.frame_of(frame) for frame in what]
        else:
            actor.results.append(self.value(what) if kind == "answer" else what)

    def values(self, given):
        return [self.value(it) for it in given]

    def value(self, json):
        return Value("local", json["local"]) if isinstance(json, dict) and "local" in json else super().value(json)

    def message_of(self, part):
        return Message(part["selector"], self.values(part["args"]), part.get("sender"), part.get("seq", 0))

    def frame_of(self, part):
        method, holder = self.methods[part["method"]]
        receiver, temps, operands = self.value(part["receiver"]), self.values(part["temps"]), self.values(part["operands"])
        return Frame(method, holder, receiver, temps, operands, part["pc"])
