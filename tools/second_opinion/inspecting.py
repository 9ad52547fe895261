"""An actor as image files have it, and what `inspect` answers."""

from .looking import phase


def inspected(image, actor):
    """The actor as a file has it, with the number of the turn that stands there: how many messages it has begun since the base."""
    turn = None if phase(image, actor) == "fresh" else actor.accepted - len(actor.pending)
    return {**part(image, actor), "turn": turn}


def part(image, actor):
    """The actor as a file has it."""
    return {
        "body": {"objects": [object_part(image, it) for it in actor.objects], "phase": phase_part(image, actor)},
        "capacity": actor.capacity,
        "class": class_name(image, actor.objects[0]),
        "last": actor.last,
        "open": actor.is_open,
        "pending": [{**message_part(image, it), "sender": it.sender, "seq": it.number} for it in actor.pending],
    }


def class_name(image, one):
    return image.classes.all[one.class_number].name


def values(image, given):
    return [image.json(it) for it in given]


def object_part(image, one):
    return {"class": class_name(image, one), "slots": values(image, one.slots)}


def message_part(image, message):
    return {"args": values(image, message.arguments), "selector": message.selector}


def phase_part(image, actor):
    """Where the turn stands, with the message that was begun, or with the frames."""
    if actor.message is not None:
        return {"start": message_part(image, actor.message)}
    if actor.frames:
        return {"frames": [frame_part(image, it) for it in actor.frames]}
    return phase(image, actor)


def frame_part(image, frame):
    return {
        "method": frame.method.edit,
        "operands": values(image, frame.operands),
        "pc": frame.next,
        "receiver": image.json(frame.receiver),
        "temps": values(image, frame.temps),
    }
