"""What the commands that look answer. They change nothing. Seven ask the class table alone; the others ask for actors, and for the whole
image. What `inspect` answers is in inspecting.py."""

from smalltalk.language import EDITS_AT_ONCE, EDITS_OF_A_RUN, EDITS_OF_A_TABLE, KERNEL_SELECTORS, LARGEST_NUMBER, MOST_ITEMS, is_selector
from smalltalk.values import Value

from .classes import Refused


def number_of(table, command):
    """The number of the class that a command names."""
    if command["class"] not in table.numbers:
        raise Refused("UnknownClass")
    return table.numbers[command["class"]]


def selector_of(command):
    """The selector that a command names. It may be in no table of names, and then nobody has it."""
    if not is_selector(command["selector"]):
        raise Refused("BadName")
    return command["selector"]


def own_selectors(one):
    """The selectors for which a class has a method of its own, the kernel's among them."""
    return set(KERNEL_SELECTORS.get(one.name, ())).union(one.methods)


def classes(table, command):
    """All classes, by their numbers, with what each has of its own."""
    return {
        "classes": [
            {
                "methods": len(own_selectors(one)),
                "name": one.name,
                "slots": one.own,
                "super": None if one.parent is None else table.all[one.parent].name,
            }
            for one in table.all
        ]
    }


def methods(table, command):
    """The methods that a class has of its own, by the numbers of their selectors."""
    number = number_of(table, command)
    one = table.all[number]
    rows = []
    for selector in sorted(own_selectors(one), key=table.names.numbers.get):
        row = {"version": table.version(number, selector)} if selector in one.methods else {"kernel": True}
        rows.append({"selector": selector, **row})
    return {"methods": rows}


def source(table, command):
    """The method that a send to an instance of the class would run, and the class that holds it."""
    number, selector = number_of(table, command), selector_of(command)
    found = table.find(number, selector)
    if found is None:
        raise Refused("NoSuchMethod")
    holder, method = found
    name = table.all[holder].name
    if method is None:
        return {"class": name, "kernel": True}
    version, text = table.past[holder, selector][-1]
    return {"class": name, "source": text, "version": version}


def versions(table, command):
    """Every install and every removal of a class's own method for the selector, the oldest first."""
    number, selector = number_of(table, command), selector_of(command)
    past = table.past.get((number, selector), [])
    return {"versions": [{"removed": True, "version": it} if text is None else {"source": text, "version": it} for it, text in past]}


def implementors(table, command):
    """The classes that have a method of their own for the selector, by their numbers."""
    selector = selector_of(command)
    return {"classes": [one.name for one in table.all if selector in own_selectors(one)]}


def sends(method, selector):
    return any(it.name in ("Send", "SuperSend") and it.operand == selector for it in method.code)


def senders(table, command):
    """The methods that are installed and send the selector, by the versions of their installs."""
    selector = selector_of(command)
    found = [
        (table.version(number, method.selector), {"class": one.name, "selector": method.selector})
        for number, one in enumerate(table.all)
        for method in one.methods.values()
        if sends(method, selector)
    ]
    return {"methods": [row for _, row in sorted(found, key=lambda it: it[0])]}


def edits(table, command):
    """The edits after the first so many, not all where these are many, and how many there are in all."""
    first = command["from"]
    if first > LARGEST_NUMBER:
        raise Refused("BadCommand")
    if first > table.edits:
        raise Refused("BadArguments")
    return {"edits": table.log[first : first + EDITS_AT_ONCE], "version": table.edits}


LOOKS = {it.__name__: it for it in (classes, methods, source, versions, implementors, senders, edits)}


def look(table, command):
    """The reply to a command that looks."""
    try:
        return {"ok": LOOKS[command["cmd"]](table, command)}
    except Refused as refused:
        return refused.reply()


def phase(image, actor):
    """Where the actor's turn stands."""
    if actor.message is not None:
        return "start"
    if actor.frames:
        return "frames"
    if not actor.results:
        return "fresh"
    result = actor.results[-1]
    return {"answer": image.json(result)} if isinstance(result, Value) else {"fault": result}


def running(image, actor):
    """The method of the frame that runs: the class that had it when the frame was made, and its selector."""
    if not actor.frames:
        return None
    frame = actor.frames[-1]
    return {"class": image.classes.all[frame.holder].name, "selector": frame.method.selector}


def told(image, actor):
    return {
        "accepted": actor.accepted,
        "actor": actor.number,
        "begun": actor.accepted - len(actor.pending),
        "class": image.classes.all[actor.objects[0].class_number].name,
        "open": actor.is_open,
        "phase": phase(image, actor),
        "running": running(image, actor),
    }


def actors(image, command):
    """The actors from a number on, at most so many, and how many there are in all."""
    first, most = command["from"], command["most"]
    return {"actors": [told(image, it) for it in image.actors[first : first + most]], "count": len(image.actors)}


def edits_left(image):
    """The table has a limit, and so has a run of the program, for which the edits of the file that it loaded do not count."""
    edits = image.classes.edits
    return max(0, min(EDITS_OF_A_TABLE - edits, EDITS_OF_A_RUN - (edits - image.loaded)))


def status(image):
    """The sizes of the image, and what it has counted. A script is one session, and has one worker."""
    return {
        "actors": len(image.actors),
        "classes": len(image.classes.all),
        "edits": image.classes.edits,
        "edits_left": edits_left(image),
        "epoch": image.epoch(),
        "faults": image.failures.count,
        "history": image.items,
        "history_most": MOST_ITEMS,
        "names": len(image.classes.names.numbers),
        "posts": image.posts,
        "sessions": 1,
        "steps": image.steps,
        "workers": 1,
    }
