"""What is said of a refused command: its sentence in advice.py, and what the workspace knows besides."""

from . import advice, looks
from .known import KERNEL, near
from .sources import bad_source
from .statements import RESERVED
from .turns import Turn


def lines(session, command, reply):
    """Of a served image it is asked first which classes there are now."""
    known, image = session.known, session.image
    if image.is_served and reply["error"] in ABOUT_CLASSES:
        looks.classes(session)
    if reply["error"] == "BadSource":
        variables = known.slots(command["class"])
        return bad_source(command["source"], reply["kind"], reply["offset"], variables, known.classes)
    if reply["error"] == "UnknownClass":
        return [unknown_class(command, reply, known, image)]
    own = OWN.get(reply["error"])
    return [own and own(session, command, reply) or advice.refusal(command, reply, image.advice)]


def unknown_class(command, reply, known, image):
    """Names the first class of the command that is not there."""
    given = [command.get("class"), command.get("super")]
    given += [it["class"] for it in command.get("args", []) if isinstance(it, dict) and "class" in it]
    name = next((name for name in given if name and name not in known.classes), "this")
    if name != "this" and name[0].islower():
        return f"{reply['error']}: no class is named {name}; the name of a class begins with a capital" + near(name, known.classes)
    return advice.refusal({**command, "class": name, "super": name}, reply, image.advice) + near(name, [*known.classes, *known.names])


def expired(_session, command, reply):
    """Of a failure that is asked for. Such ones are kept of the image, and not of each actor as the ends of turns are."""
    if command["cmd"] != "fault":
        return None
    ended = f"how turn {command['turn']} of actor {command['actor']} ended is no longer kept, or its number is 0"
    return f"{reply['error']}: {ended}; of the whole image the newest 64 turns that failed are kept,  :faults 64  lists them"


def no_such_method(session, command, reply):
    """Where a class above has the method, or the kernel, names that."""
    name, selector = command["class"], command["selector"]
    found = looks.source(session, name, selector)
    if found and found["class"] != name:
        return f"{reply['error']}: {name} has no method {selector} of its own; {found['class']} has one"
    return found and "kernel" in found and f"{reply['error']}: {name} has this method from the kernel; it sends nothing that is counted"


def pending(session, command, reply):
    """Where nobody has posted the turn's message, says so."""
    turn = Turn(command["actor"], command["turn"])
    ((told,), _) = looks.actors(session, turn.actor, 1)
    return None if turn.number <= told["accepted"] else f"{reply['error']}: {turn} has not ended; its message is not posted yet"


def bad_arguments(_session, command, reply):
    """Where the image has no file to be saved in, says so."""
    return f"{reply['error']}: {NO_FILE}" if command["cmd"] == "save" else None


def bad_name(_session, command, reply):
    """Where it is a word of the language, says so."""
    name = advice.bad_name(command) if command["cmd"] == "define" else None
    return f"{reply['error']}: {name} is a word of the language; take another name" if name in RESERVED else None


def class_exists(session, command, reply):
    known = session.known
    name, old = command["name"], known.classes.get(command["name"])
    if name in KERNEL:
        return f"{reply['error']}: {name} is a class of the kernel, and stays as it is; take another name"
    if old and (old.parent, old.slots) == (command["super"], command["slots"]):
        return f"{reply['error']}: this class is there already, with these variables, and nothing is to be done"
    if not old:
        return None
    more = [slot for slot in command["slots"] if slot not in old.slots]
    is_wider = command["super"] == old.parent and set(old.slots) < set(command["slots"])
    known.above[name] = old.parent
    advised = ADD.format(name, " ".join(more)) if is_wider else MOVE
    return f"{reply['error']}: there is already  {old.written()}  and its variables stay; {advised}"


def stale(_session, command, reply):
    sentence = {"remove": NOT_REMOVED, "reparent": NOT_MOVED}.get(command["cmd"])
    return sentence and f"{reply['error']}: {sentence}"


ADD = "bin/add-variable FILE {} {}  gives it these too, in an image file that no program has"
MOVE = "name just these to put it under another class, and further ones in a class below it"


NOT_REMOVED = "somebody has changed this method since it was shown or written here, and nothing is removed; type it again to remove it"
NOT_MOVED = (
    "somebody has put this class under another one since it was shown or defined here, and it stays there; type it again to put it where "
    "you want it"
)
NO_FILE = "the server was started without --image FILE, so nothing is saved;  :sources FILE  writes the classes and methods"
ABOUT_CLASSES = ("BadSource", "ClassExists", "UnknownClass")
# What says more than its sentence in advice.py.
OWN = {
    "BadArguments": bad_arguments,
    "BadName": bad_name,
    "ClassExists": class_exists,
    "Expired": expired,
    "NoSuchMethod": no_such_method,
    "Pending": pending,
    "Stale": stale,
}
