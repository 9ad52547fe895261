"""A turn of a file has to fit its methods: whether each frame could stand where it does. Place `actors`."""

from smalltalk.language import MOST_FRAMES

from .refused import BadImage

SENDS = ("Send", "SuperSend")


def refuse(path, what):
    raise BadImage("actors", path, what)


def check_turn(actors, body, path):
    """`actors` asks whether a value names something."""
    phase = body["phase"]
    if phase == "fresh":
        return
    [(kind, what)] = phase.items()
    objects = body["objects"]
    if kind == "start":
        actors.check_message(what, path + ".start")
    elif kind == "answer":
        actors.check_value(what, path + ".answer", len(objects))
    elif kind == "frames":
        if not 1 <= len(what) <= MOST_FRAMES:
            refuse(path + ".frames", f"there are {len(what)}; a turn has 1 to {MOST_FRAMES}")
        for place, frame in enumerate(what):
            check_frame(actors, frame, objects, place == len(what) - 1, f"{path}.frames[{place}]")


def check_frame(actors, frame, objects, is_running, path):
    method = actors.classes.methods.get(frame["method"])
    if method is None:
        refuse(path + ".method", f"edits[{frame['method']}] is not an install")
    code = method.code
    if frame["pc"] >= len(code.code):
        refuse(path + ".pc", f"{frame['pc']} is outside the code of {method.name}, which has {len(code.code)} instructions")
    if len(frame["temps"]) != len(method.variables):
        count = len(method.variables)
        refuse(path + ".temps", f"there are {len(frame['temps'])}; {method.name} has {count} arguments and temporaries")
    check_operands(frame, code, is_running, path)
    check_receiver(actors, frame["receiver"], method, objects, path + ".receiver")
    actors.check_value(frame["receiver"], path + ".receiver", len(objects))
    actors.check_values(frame["temps"], path + ".temps", len(objects))
    actors.check_values(frame["operands"], path + ".operands", len(objects))


def check_operands(frame, code, is_running, path):
    """A frame that waits has taken a send and not got its answer."""
    wanted = code.depths[frame["pc"]]
    if not is_running:
        wanted -= 1
        if frame["pc"] == 0 or code.code[frame["pc"] - 1].name not in SENDS:
            refuse(path + ".pc", "the frame waits for an answer, and there is no send just before its pc")
    if len(frame["operands"]) != wanted:
        says = "the depth there is" if is_running else "a frame that waits there has"
        refuse(path + ".operands", f"there are {len(frame['operands'])}; {says} {wanted}")


def check_receiver(actors, receiver, method, objects, path):
    """A method of a class with instance variables runs on an object that has them, as its first ones."""
    slots = method.holder.slots
    if not slots:
        return
    place = receiver.get("local") if type(receiver) is dict else None
    if place is None or place >= len(objects):
        refuse(path, f"{method.name} runs on an object with the instance variables of {method.holder.name}")
    of_class = actors.classes.all[objects[place]["class"]]
    if of_class.slots[: len(slots)] != slots:
        refuse(path, f"object {place} has not the instance variables of {method.holder.name}")
