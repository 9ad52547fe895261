"""Turns that ended with a fault: what is kept of them, and what `fault` and `faults` tell."""

from collections import deque
from typing import NamedTuple

from smalltalk.compiler import place_of

KEPT = 64


class Failure(NamedTuple):
    """`told` is what `fault` tells of it."""

    actor: int
    turn: int
    fault: str
    step: int
    told: dict


class Failures:
    """The newest failures of an image since its base, at which it had taken `base` steps, and how many there were."""

    def __init__(self, base=0):
        self.base = base
        self.count = 0
        self.kept = deque(maxlen=KEPT)

    def note(self, image, actor, fault):
        """A fault in the step that is being taken. The frames are those before it, but for the operands and the next instruction."""
        turn = len(actor.results) + 1 - (actor.number in image.stands)
        frames = [frame_told(image, actor, frame) for frame in actor.frames]
        told = {"fault": fault, "frames": frames, "step": image.taking, **cause_told(image, actor)}
        self.kept.append(Failure(actor.number, turn, fault, image.taking, told))
        self.count += 1

    def of_turn(self, number, turn):
        """What is told of an actor's turn; None if that is not kept."""
        return next((it.told for it in self.kept if (it.actor, it.turn) == (number, turn)), None)

    def behind(self, after, steps):
        """Those behind a step, and the step from which on none is missing."""
        first = max(after, self.base, self.kept[0].step - 1 if self.count > KEPT else 0)
        rows = [{"actor": it.actor, "fault": it.fault, "step": it.step, "turn": it.turn} for it in self.kept if it.step > first]
        return {"faults": rows, "from": first, "steps": steps}


def class_name(image, actor, value):
    return image.classes.all[actor.class_of(value)].name


def frame_told(image, actor, frame):
    """The instruction at which a frame stands is the one that it took last: a send that it waits for, or what failed."""
    receiver, method = frame.receiver, frame.method
    slots = actor.objects[receiver.content].slots if receiver.kind == "local" else []
    return {
        "class": class_name(image, actor, receiver),
        "holder": image.classes.all[frame.holder].name,
        "method": method.edit,
        "offset": place_of(method.code, frame.next - 1),
        "receiver": image.json(receiver),
        "selector": method.selector,
        "slots": [image.json(it) for it in slots],
        "source": image.classes.log[method.edit]["install"]["source"],
        "temps": [image.json(it) for it in frame.temps],
    }


def cause_told(image, actor):
    """The message that failed, or the value that is no boolean."""
    if actor.tested is not None:
        return {"value": image.json(actor.tested)}
    receiver, selector, arguments, is_super = actor.sent
    told = {"args": [image.json(it) for it in arguments], "class": class_name(image, actor, receiver)}
    return {"send": {**told, "receiver": image.json(receiver), "selector": selector, "super": is_super}}
