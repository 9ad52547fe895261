"""The forms of an image file: which keys each part has, and values of which kind and range. Place `shape`.

A form is a function of a value and its path, which refuses the value if it has not the form.
"""

from .refused import BadImage, join, quoted

FAULTS = (
    "notUnderstood overflow zeroDivide badArgument mustBeBoolean stackOverflow heapFull localArgument tooManyActors".split()
)


def refuse(value, path, wanted):
    raise BadImage("shape", path, f"{quoted(value)} is not {wanted}")


def whole(least, most):
    def check(value, path):
        if type(value) is not int or not least <= value <= most:
            refuse(value, path, f"a whole number from {least} to {most}")

    return check


def text(value, path):
    if type(value) is not str:
        refuse(value, path, "a text")


def boolean(value, path):
    if type(value) is not bool:
        refuse(value, path, "true or false")


def items(form):
    """An array of such items."""

    def check(value, path):
        if type(value) is not list:
            refuse(value, path, "an array")
        for place, item in enumerate(value):
            form(item, f"{path}[{place}]")

    return check


def pair(first, second):
    """An array of two."""

    def check(value, path):
        if type(value) is not list or len(value) != 2:
            refuse(value, path, "an array of two")
        first(value[0], path + "[0]")
        second(value[1], path + "[1]")

    return check


def record(forms):
    """An object of just these keys."""

    def check(value, path):
        if type(value) is not dict:
            refuse(value, path, "an object")
        if value.keys() != forms.keys():
            raise BadImage("shape", path, wrong_keys(value, forms))
        for key, form in forms.items():
            form(value[key], join(path, key))

    return check


def wrong_keys(value, forms):
    missing = [key for key in forms if key not in value]
    if missing:
        return f"the key {missing[0]} is missing"
    return f"there is no key {quoted(next(key for key in value if key not in forms))} here"


def one_of(forms):
    """An object of one key, which is one of these."""
    keys = list(forms)
    wanted = f"an object whose one key is {', '.join(keys[:-1])} or {keys[-1]}"

    def check(value, path):
        if type(value) is not dict or len(value) != 1 or not value.keys() <= forms.keys():
            refuse(value, path, wanted)
        [key] = value
        forms[key](value[key], join(path, key))

    return check


NUMBER = whole(0, 2**64 - 1)
CLIENT = whole(0, 65_535)
LAST_OF_CLIENT = whole(1, 2**64 - 1)
ACTOR_NUMBER = whole(0, 2**32 - 1)
INTEGER = whole(-(2**63), 2**63 - 1)

NAMED = one_of({"ref": ACTOR_NUMBER, "sym": text, "class": text, "local": NUMBER})


def value(it, path):
    if type(it) is int:
        INTEGER(it, path)
    elif type(it) is dict:
        NAMED(it, path)
    elif it is not None and type(it) is not bool:
        refuse(it, path, "a value")


def fault(it, path):
    text(it, path)
    if it not in FAULTS:
        refuse(it, path, "the name of a fault")


VALUES = items(value)
SENDER_ACTOR = record({"ref": ACTOR_NUMBER})


def sender(it, path):
    """A client by its number, an actor by its reference."""
    (SENDER_ACTOR if type(it) is dict else CLIENT)(it, path)


MESSAGE = record({"args": VALUES, "selector": text, "sender": sender, "seq": NUMBER})
OBJECT = record({"class": text, "slots": VALUES})
FRAME = record({"method": NUMBER, "operands": VALUES, "pc": NUMBER, "receiver": value, "temps": VALUES})
START = record({"args": VALUES, "selector": text})
TURN = one_of({"start": START, "frames": items(FRAME), "answer": value, "fault": fault})


def phase(it, path):
    if type(it) is str and it != "fresh":
        refuse(it, path, "the text fresh")
    if type(it) is not str:
        TURN(it, path)


BODY = record({"objects": items(OBJECT), "phase": phase})
ACTOR = record(
    {"body": BODY, "capacity": NUMBER, "class": text, "last": NUMBER, "open": boolean, "pending": items(MESSAGE)}
)
EDIT = one_of(
    {
        "define": record({"name": text, "slots": items(text), "super": text}),
        "install": record({"class": text, "source": text}),
        "remove": record({"class": text, "selector": text}),
        "reparent": record({"class": text, "super": text}),
    }
)
COUNT = whole(0, 2**63 - 1)
PARTS = {
    "actors": items(ACTOR),
    "edits": items(EDIT),
    "names": items(text),
    "senders": items(pair(CLIENT, LAST_OF_CLIENT)),
}
FORMATS = {
    1: record({**PARTS, "format": whole(1, 1)}),
    2: record({**PARTS, "format": whole(2, 2), "posts": COUNT, "steps": COUNT}),
}


def check_form(file):
    """Refuses what is not of the form of a file. The format is looked at before all else; a file without one is looked at as of
    format 2."""
    known = file.get("format", 2) if type(file) is dict else 2
    if type(known) is not int or known not in FORMATS:
        raise BadImage("shape", "format", f"format {quoted(known)} is not known; this reads formats 1 and 2")
    FORMATS[known](file, "")
