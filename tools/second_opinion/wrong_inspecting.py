"""Wrong rules of the command that shows an actor as image files have it."""

from .wrong_rule import WrongRule

SHOWN = 'inspected(self, self.actors[command["actor"]])'
BEGUN = "else actor.accepted - len(actor.pending)"
OBJECTS = "[object_part(image, it) for it in actor.objects]"
SLOTS = "values(image, one.slots)"
FRAMES = "[frame_part(image, it) for it in actor.frames]"
PENDING = "for it in actor.pending]"
OPERANDS = "values(image, frame.operands)"
TEMPS = "values(image, frame.temps)"
ARGUMENTS = "values(image, message.arguments)"
EDIT = '"method": frame.method.edit'
RECEIVER = '"receiver": image.json(frame.receiver)'
THERE = '        if command["actor"] >= len(self.actors):\n            return {"error": "UnknownActor"}\n        return {"ok": inspected'
NUMBERED = "        self.last += took\n"


def in_frames(key, value):
    """The frames, with another value for one key; a frame is `it`."""
    return f'[{{**frame_part(image, it), "{key}": {value}}} for it in actor.frames]'


WRONG_INSPECTING = [
    WrongRule(
        "an actor is shown as it was when it was first asked for",
        "image",
        SHOWN,
        f'self.__dict__.setdefault(command["actor"], {SHOWN})',
    ),
    WrongRule(
        "an actor in a turn shows the objects that it had in the turn before",
        "inspecting",
        OBJECTS,
        f'actor.__dict__.setdefault("before", {OBJECTS}) if actor.in_turn() else {OBJECTS}',
    ),
    WrongRule(
        "the actor after the one that is asked for is shown",
        "image",
        SHOWN,
        SHOWN.replace('"actor"]', '"actor"] - len(self.actors) + 1'),
    ),
    WrongRule("an actor that is not there is null", "image", THERE, THERE.replace('{"error": "UnknownActor"}', '{"ok": None}')),
    WrongRule(
        "only the actor itself is shown of its objects",
        "inspecting",
        OBJECTS,
        OBJECTS.replace("actor.objects", "actor.objects[:1]"),
    ),
    WrongRule(
        "the newest object is the first",
        "inspecting",
        OBJECTS,
        OBJECTS.replace("actor.objects", "actor.objects[::-1]"),
    ),
    WrongRule(
        "an object is of the class of its actor",
        "inspecting",
        OBJECTS,
        '[{**object_part(image, it), "class": class_name(image, actor.objects[0])} for it in actor.objects]',
    ),
    WrongRule(
        "inherited instance variables are not shown",
        "inspecting",
        SLOTS,
        "values(image, one.slots[-len(image.classes.all[one.class_number].own) :])",
    ),
    WrongRule(
        "a class's own instance variables are shown first",
        "inspecting",
        SLOTS,
        "values(image, one.slots[::-1])",
    ),
    WrongRule(
        "the message that is begun next is not shown",
        "inspecting",
        PENDING,
        "for it in list(actor.pending)[1:]]",
    ),
    WrongRule("the last message that came is not shown", "inspecting", PENDING, "for it in list(actor.pending)[:-1]]"),
    WrongRule("the last message that came is shown first", "inspecting", PENDING, "for it in reversed(actor.pending)]"),
    WrongRule(
        "an actor in a turn has no messages",
        "inspecting",
        PENDING,
        "for it in actor.pending if not actor.in_turn()]",
    ),
    WrongRule("a closed mailbox is empty", "inspecting", PENDING, "for it in actor.pending if actor.is_open]"),
    WrongRule(
        "arguments are shown in the other order",
        "inspecting",
        ARGUMENTS,
        "values(image, message.arguments[::-1])",
    ),
    WrongRule(
        "an actor that sent a message is shown as a client",
        "machine",
        '{"ref": self.number}, self.last + 1',
        "self.number, self.last + 1",
    ),
    WrongRule(
        "messages of actors have the number before",
        "machine",
        '{"ref": self.number}, self.last + 1',
        '{"ref": self.number}, self.last',
    ),
    WrongRule(
        "messages have no numbers of their own",
        "image",
        "for argument in arguments], sender, seq))",
        "for argument in arguments], sender, self.posts + 1))",
    ),
    WrongRule("what a mailbox refused of an actor has its number", "machine", NUMBERED, "        self.last += 1\n"),
    WrongRule(
        "actors number their messages together",
        "machine",
        NUMBERED,
        "        for it in self.image.actors:\n            it.last += took\n",
    ),
    WrongRule(
        "the last number is that of the last message that the actor got",
        "inspecting",
        '"last": actor.last',
        '"last": actor.pending[-1].number if actor.pending else actor.last',
    ),
    WrongRule(
        "a capacity is what is left of it",
        "inspecting",
        '"capacity": actor.capacity',
        '"capacity": actor.capacity - len(actor.pending)',
    ),
    WrongRule(
        "a closed mailbox holds nothing",
        "inspecting",
        '"capacity": actor.capacity',
        '"capacity": actor.capacity * actor.is_open',
    ),
    WrongRule(
        "an actor whose mailbox is empty is open",
        "inspecting",
        '"open": actor.is_open',
        '"open": actor.is_open or not actor.pending',
    ),
    WrongRule("what is pending is counted as begun", "inspecting", BEGUN, "else actor.accepted"),
    WrongRule("a turn has its number once it has ended", "inspecting", BEGUN, BEGUN + " - actor.in_turn()"),
    WrongRule("the turn is the one that comes next", "inspecting", BEGUN, BEGUN + " + (not actor.in_turn())"),
    WrongRule("a fresh actor is in turn 0", "inspecting", 'None if phase(image, actor) == "fresh"', "None if False"),
    WrongRule("the turn that stands at a checkpoint has no number", "inspecting", BEGUN, BEGUN + " or None"),
    WrongRule(
        "turns are numbered behind the one that stood at the last checkpoint",
        "inspecting",
        BEGUN,
        BEGUN + " + (actor.number in image.stands)",
    ),
    WrongRule("the running frame is shown first", "inspecting", FRAMES, FRAMES[:-1] + "[::-1]]"),
    WrongRule("the running frame alone is shown", "inspecting", FRAMES, FRAMES[:-1] + "[-1:]]"),
    WrongRule("the running frame is not shown", "inspecting", FRAMES, FRAMES[:-1] + "[:-1] or actor.frames[:1]]"),
    WrongRule(
        "a frame that waits has the answer among its operands",
        "inspecting",
        FRAMES,
        in_frames("operands", "values(image, it.operands) + [None] * (it is not actor.frames[-1])"),
    ),
    WrongRule(
        "the running frame has an operand more",
        "inspecting",
        FRAMES,
        in_frames("operands", "values(image, it.operands) + [None] * (it is actor.frames[-1])"),
    ),
    WrongRule(
        "a frame that waits stands at its send",
        "inspecting",
        FRAMES,
        in_frames("pc", "it.next - (it is not actor.frames[-1])"),
    ),
    WrongRule(
        "the running frame stands behind its next instruction",
        "inspecting",
        FRAMES,
        in_frames("pc", "it.next + (it is actor.frames[-1])"),
    ),
    WrongRule(
        "frames that wait have no operands",
        "inspecting",
        FRAMES,
        in_frames("operands", "values(image, it.operands) if it is actor.frames[-1] else []"),
    ),
    WrongRule("the top operand is shown first", "inspecting", OPERANDS, "values(image, frame.operands[::-1])"),
    WrongRule(
        "arguments are no temporaries",
        "inspecting",
        TEMPS,
        "values(image, frame.temps[frame.method.arguments :])",
    ),
    WrongRule(
        "temporaries of a frame are its arguments",
        "inspecting",
        TEMPS,
        "values(image, frame.temps[: frame.method.arguments])",
    ),
    WrongRule(
        "temporaries are shown as they were when the method began",
        "inspecting",
        TEMPS,
        "values(image, frame.temps[: frame.method.arguments]) + [None] * frame.method.temporaries",
    ),
    WrongRule("a method is shown by its version", "inspecting", EDIT, EDIT + " + 1"),
    WrongRule(
        "a frame shows the method that its message would run now",
        "inspecting",
        EDIT,
        '"method": image.classes.all[frame.holder].methods.get(frame.method.selector, frame.method).edit',
    ),
    WrongRule("the receiver is the actor itself", "inspecting", RECEIVER, '"receiver": {"local": 0}'),
    WrongRule(
        "a turn that has ended shows how the one before it ended",
        "inspecting",
        "    return phase(image, actor)\n",
        "    twin = actor.copy(image)\n    twin.results = actor.results[-2:][:1]\n    return phase(image, twin)\n",
    ),
]
