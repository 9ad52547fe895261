"""What the commands that look answer where there is as much as there may be."""

from .commands import define, edits, error, method, remove, replace, too_many, version
from .limits import name
from .running import run as run_script
from .script import Script

# The kernel's classes, and how many methods each has of its own.
KERNEL = {"Object": 5, "SmallInteger": 9, "True": 2, "False": 2, "UndefinedObject": 0, "Symbol": 0, "ActorRef": 4, "Class": 2}
SESSION_EDITS, ALL_CLASSES, MOST_TOLD = 2048, 1024, 4096
EDITS_TOLD = 256


def row(name, methods=0, above="Object"):
    return {"methods": methods, "name": name, "slots": [], "super": above}


def all_classes_listed(program):
    """1,024 classes, the kernel's 8 among them. The last of them have a method each, all for one selector."""
    script = Script("all_classes_listed")
    names = [name("C", number) for number in range(ALL_CLASSES - len(KERNEL))]
    for number, it in enumerate(names, 1):
        script.ask(define(it), version(number))
    for number, it in enumerate(names[500:], len(names) + 1):
        script.ask(method(it, "a ^self b"), version(number))
    kernel = [row(it, methods, None if it == "Object" else "Object") for it, methods in KERNEL.items()]
    script.ask({"cmd": "classes"}, {"ok": {"classes": kernel + [row(it, int(place >= 500)) for place, it in enumerate(names)]}})
    script.ask({"cmd": "implementors", "selector": "a"}, {"ok": {"classes": names[500:]}})
    script.ask({"cmd": "senders", "selector": "b"}, {"ok": {"methods": [{"class": it, "selector": "a"} for it in names[500:]]}})
    run_script(program, script)


def all_methods_listed(program):
    """As many methods as a session may install behind a definition, in one class."""
    script = Script("all_methods_listed")
    script.ask(define("A"), version(1))
    names = [name("m", number) for number in range(SESSION_EDITS - 1)]
    for number, it in enumerate(names, 2):
        script.ask(method("A", f"{it} ^self + 1"), version(number))
    rows = [{"selector": it, "version": number} for number, it in enumerate(names, 2)]
    script.ask({"class": "A", "cmd": "methods"}, {"ok": {"methods": rows}})
    script.ask({"cmd": "senders", "selector": "+"}, {"ok": {"methods": [{"class": "A", "selector": it} for it in names]}})
    run_script(program, script)


def all_versions_listed(program):
    """One method that is installed and removed in turn as often as a session may, with long sources."""
    script = Script("all_versions_listed")
    script.ask(define("A"), version(1))
    rows = []
    for number in range(2, SESSION_EDITS + 1):
        if number % 3:
            source = f'a "{number}\t{"x" * 3900}\n" ^{number}'
            script.ask(method("A", source), version(number))
            rows.append({"source": source, "version": number})
        elif number % 6:
            script.ask(remove("A", "a"), version(number))
            rows.append({"removed": True, "version": number})
        else:
            script.ask(method("A", "a"), version(number))
            rows.append({"source": "a", "version": number})
    script.ask({"class": "A", "cmd": "versions", "selector": "a"}, {"ok": {"versions": rows}})
    script.ask({"class": "A", "cmd": "source", "selector": "a"}, {"ok": {"class": "A", **rows[-1]}})
    run_script(program, script)


def all_edits_listed(program):
    """As many edits as a session may make, each over the one before, and as many of them as are told at once, from several places."""
    script = Script("all_edits_listed")
    script.ask(define("A"), version(1))
    rows = [{"define": {"name": "A", "slots": [], "super": "Object"}}]
    for number in range(2, SESSION_EDITS + 1):
        source = f'a "{number}\t{"x" * 3900}\n" ^{number}'
        script.ask(replace("A", number - 1 if number > 2 else 0, source), version(number))
        rows.append({"install": {"class": "A", "source": source}})
    last = SESSION_EDITS - EDITS_TOLD
    for first in (*range(0, SESSION_EDITS + 1, EDITS_TOLD), 1, last - 1, last + 1, SESSION_EDITS - 1):
        script.ask(edits(first), {"ok": {"edits": rows[first : first + EDITS_TOLD], "version": SESSION_EDITS}})
    script.ask(edits(SESSION_EDITS + 1), error("BadArguments"))
    script.ask(replace("A", SESSION_EDITS - 1, "a ^1"), error("Stale", version=SESSION_EDITS))
    script.ask(replace("A", SESSION_EDITS, "a ^1"), too_many("edits"))
    run_script(program, script)


def most_actors_listed(program):
    """More actors than are told at once."""
    script = Script("most_actors_listed")
    script.ask(define("A"), version(1))
    rest = {"accepted": 0, "begun": 0, "class": "A", "open": True, "phase": "fresh", "running": None}
    rows = [{**rest, "actor": number} for number in range(MOST_TOLD + 2)]
    for number in range(len(rows)):
        script.ask({"class": "A", "cmd": "actor"}, {"ok": {"actor": number}})
    for first in (0, 1, 2, 3, MOST_TOLD, MOST_TOLD + 1, MOST_TOLD + 2):
        told = rows[first : first + MOST_TOLD]
        script.ask({"cmd": "actors", "from": first, "most": MOST_TOLD}, {"ok": {"actors": told, "count": len(rows)}})
    run_script(program, script)


TRIALS = (all_classes_listed, all_methods_listed, all_versions_listed, all_edits_listed, most_actors_listed)
