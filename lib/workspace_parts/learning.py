"""What an image file tells of its image: as much as the workspace would know if all had been typed into it."""

from .turns import Turn
from .values import count


def learn(image, known, turns):
    """Takes note of the classes and actors of an image that was just loaded, of the turns that go on in it and that wait, and of
    the last number of the sender."""
    learn_classes(image.classes.all, known)
    for number, actor in enumerate(image.actors):
        known.actor(number).class_name = actor["class"]
        for turn, selector in turns_of(number, actor, turns.sender, image.classes):
            turns.waiting.append(turn)
            turns.selectors[turn] = selector
    turns.last = dict(image.senders).get(turns.sender, 0)


def learn_classes(classes, known):
    for name, it in classes.items():
        if not it.is_kernel:
            known.define(name, it.parent.name, it.own_slots)
        for selector, method in it.methods.items():
            known.install(name, selector, method.source)


def turns_of(number, actor, sender, classes):
    """The turns of an actor whose ends are to be told, with the selectors of their messages: the one that goes on, whose number is
    0, and those of the messages that the sender has posted and that are pending, which are numbered from 1."""
    begun = going_on(actor["body"]["phase"], classes)
    if begun:
        yield Turn(number, 0), begun
    for place, message in enumerate(actor["pending"], 1):
        if message["sender"] == sender:
            yield Turn(number, place), message["selector"]


def going_on(phase, classes):
    """The selector of the message that is begun; None if the actor is in no turn."""
    if "start" in phase:
        return phase["start"]["selector"]
    return classes.methods[phase["frames"][0]["method"]].selector if "frames" in phase else None


def contents(image):
    """What an image has, in some words."""
    own = [it for it in image.classes.all.values() if not it.is_kernel]
    methods = sum(len(it.methods) for it in image.classes.all.values())
    said = [count(len(own), "class"), count(methods, "method"), count(len(image.actors), "actor")]
    left = sum(len(it["pending"]) + bool(going_on(it["body"]["phase"], image.classes)) for it in image.actors)
    return ", ".join(said + ([f"{count(left, 'turn')} to run"] if left else []))
