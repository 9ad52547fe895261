"""What actors hold has to be there: classes, names, other actors, objects. Place `actors`, but for their turns."""

from smalltalk.language import MOST_ACTORS, MOST_OBJECTS, arguments_of

from .refused import BadImage, quoted
from .turns import check_turn

MOST_CAPACITY = 1024


def refuse(path, what):
    raise BadImage("actors", path, what)


class Actors:
    """The actors of a file, beside its names and classes."""

    def __init__(self, names, classes, actors):
        self.names, self.classes, self.all = names, classes, actors

    def check(self):
        if len(self.all) > MOST_ACTORS:
            refuse("actors", f"there are {len(self.all):,}; an image has at most {MOST_ACTORS:,}")
        for number, actor in enumerate(self.all):
            self.check_actor(actor, f"actors[{number}]")

    def check_actor(self, actor, path):
        self.class_of_objects(actor["class"], path + ".class")
        if not 1 <= actor["capacity"] <= MOST_CAPACITY:
            refuse(path + ".capacity", f"{actor['capacity']} is not from 1 to {MOST_CAPACITY}")
        if len(actor["pending"]) > actor["capacity"]:
            refuse(path + ".pending", f"{len(actor['pending'])} messages are more than the capacity, {actor['capacity']}")
        self.check_objects(actor, path + ".body.objects")
        check_turn(self, actor["body"], path + ".body.phase")
        for place, message in enumerate(actor["pending"]):
            at = f"{path}.pending[{place}]"
            self.check_message(message, at)
            sender = message["sender"]
            if type(sender) is dict:
                self.check_value(sender, at + ".sender", 0)

    def class_of_objects(self, name, path):
        """The class, if actors and objects may be of it."""
        if name not in self.classes.all:
            refuse(path, f"no class is named {quoted(name)}")
        if not self.classes.all[name].has_objects:
            refuse(path, f"{name} is a class of the kernel, of which there are no such objects")
        return self.classes.all[name]

    def check_objects(self, actor, path):
        objects = actor["body"]["objects"]
        if not 1 <= len(objects) <= MOST_OBJECTS:
            refuse(path, f"there are {len(objects):,}; an actor has 1 to {MOST_OBJECTS:,}")
        if objects[0]["class"] != actor["class"]:
            refuse(path + "[0].class", f"object 0 is the actor, whose class is {actor['class']}")
        for place, one in enumerate(objects):
            at = f"{path}[{place}]"
            of_class = self.class_of_objects(one["class"], at + ".class")
            if len(one["slots"]) != len(of_class.slots):
                count = len(of_class.slots)
                refuse(at + ".slots", f"there are {len(one['slots'])}; {of_class.name} has {count} instance variables")
            self.check_values(one["slots"], at + ".slots", len(objects))

    def check_message(self, message, path):
        """A message, also one that a turn is about to begin."""
        selector = message["selector"]
        if selector not in self.names.all:
            refuse(path + ".selector", f"there is no name {quoted(selector)}")
        if len(message["args"]) != arguments_of(selector):
            refuse(path + ".args", f"there are {len(message['args'])}; {selector} takes {arguments_of(selector)}")
        self.check_values(message["args"], path + ".args", 0)

    def check_values(self, values, path, objects):
        for place, value in enumerate(values):
            if type(value) is dict:
                self.check_value(value, f"{path}[{place}]", objects)

    def check_value(self, value, path, objects):
        """`objects` is how many there are that the value may name: none in a message."""
        if type(value) is not dict:
            return
        [(kind, what)] = value.items()
        if kind == "ref" and what >= len(self.all):
            refuse(path, f"there is no actor {what}")
        if kind == "sym" and what not in self.names.all:
            refuse(path, f"there is no name {quoted(what)}")
        if kind == "class" and what not in self.classes.all:
            refuse(path, f"no class is named {quoted(what)}")
        if kind == "local" and not objects:
            refuse(path, "a message takes no object to another actor")
        if kind == "local" and what >= objects:
            refuse(path, f"the actor has no object {what}")
