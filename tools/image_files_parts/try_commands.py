"""Trials on what each command leaves in the file of a served image, and on what is told of the actors of a file."""

import functools
import json

from inspect_trials.try_common import good_files, read
from inspect_trials.written import file_text

from .loaded import Loaded
from .program import same, settings
from .resting import ACTORS, settle
from .try_served import ask, serve, wait

# Commands of each kind for an image with class M, whose method `a` answers 14, and actor 0 of it, for which one message waits.
COMMANDS = (
    {"cmd": "define", "name": "N", "slots": ["x"], "super": "M"},
    {"class": "M", "cmd": "method", "source": "b ^self a"},
    {"class": "M", "cmd": "method", "source": "a ^15"},
    {"class": "M", "cmd": "replace", "over": 2, "source": "a ^16"},
    {"class": "M", "cmd": "remove", "selector": "a"},
    {"class": "M", "cmd": "reparent", "super": "Object"},
    {"class": "M", "cmd": "actor"},
    {"actor": 0, "args": [], "cmd": "post", "selector": "a", "sender": 1, "seq": 2},
    {"actor": 0, "args": [{"sym": "s"}], "cmd": "post", "selector": "a:", "sender": 2, "seq": 1},
    {"actor": 0, "cmd": "close"},
    {"actor": 0, "cmd": "outcome", "turn": 0},
    {"class": "M", "cmd": "stats", "selector": "a"},
    {"cmd": "checkpoint"},
    {"cmd": "save"},
    {"cmd": "classes"},
    {"class": "M", "cmd": "methods"},
    {"class": "M", "cmd": "source", "selector": "a"},
    {"class": "M", "cmd": "versions", "selector": "a"},
    {"cmd": "implementors", "selector": "a"},
    {"cmd": "senders", "selector": "+"},
    {"cmd": "senders", "selector": "neverNamed"},
    {"cmd": "edits", "from": 1},
    {"cmd": "actors", "from": 0, "most": 2},
    {"actor": 0, "cmd": "inspect"},
    {"cmd": "status"},
    {"cmd": "run", "quanta": 1},
    # these are refused
    {"actor": 0, "args": [], "cmd": "post", "selector": "a", "sender": 1, "seq": 1},
    {"actor": 1, "args": [], "cmd": "post", "selector": "a", "sender": 1, "seq": 2},
    {"actor": 1, "cmd": "close"},
    {"class": "M", "cmd": "method", "source": "a ^"},
    {"class": "M", "cmd": "remove", "selector": "c"},
    {"class": "M", "cmd": "source", "selector": "neverNamed"},
    {"cmd": "edits", "from": 3},
    {"actor": 1, "cmd": "inspect"},
    {"class": "M", "cmd": "replace", "over": 1, "source": "a ^#neverNamed"},
    {"actor": 0, "cmd": "wait", "epoch": "", "ms": 0, "turn": 0},
)
# Of these the second implementation leaves nothing behind, and it does not reply to them.
READ = {"stats": "ok", "checkpoint": "ok", "run": "error"}


def of_server(wanted, told):
    """A status of a script as that of a server with two workers, of which nobody knows the epoch before."""
    if "epoch" not in wanted.get("ok", ()):
        return wanted
    return {"ok": {**wanted["ok"], "epoch": told["ok"]["epoch"], "workers": 2}}


def each_command(program):
    """One command of a session on a server, once the turn that waited has ended: its reply, and the file that the server leaves."""
    data = read(good_files()["message-waits"])
    for command in COMMANDS:
        path = program.put("file", data)
        image = Loaded(json.loads(data))
        image.reply({"cmd": "run"})
        wanted = None if command["cmd"] in READ else image.reply(command)
        image.reply({"cmd": "run"})

        def talk(_number, end, lines):
            asked = functools.partial(ask, end, lines)
            same("the turn that waited", wait(end, lines, 1), {"ok": {"answer": 14}})
            told = asked(command)
            settle(asked)
            if wanted is None:
                same(f"{command}: the kind of its reply", list(told), [READ[command["cmd"]]])
            else:
                same(f"{command}: its reply", told, of_server(wanted, told))

        ended = serve(program, path, talk)
        same(f"{command}: the server", (ended.status, ended.err), (0, b""))
        same(f"{command}: what it leaves", read(path), file_text(image.file()).encode())
    return f"{len(COMMANDS)} servers"


ONE_STEP = {"cmd": "run", "quanta": 1}


def actors_told(program):
    """What is told of the actors of each file, and of each by itself, and again behind each of three steps. A file may have a message that
    was begun and no more, which no run leaves."""
    phases = set()
    for name, path in good_files().items():
        data = read(path)
        file = json.loads(data)
        image = Loaded(file, quantum=1)
        looks = [ACTORS] + [{"actor": number, "cmd": "inspect"} for number in range(len(file["actors"]) + 1)]
        commands = looks + [ONE_STEP, *looks] * 3
        lines = [json.dumps(command).encode() for command in commands]
        replies = program.replies(name, program.put("file", data), lines, settings(1, 64))
        for command, reply in zip(commands, replies, strict=True):
            same(f"{name}: {command}", json.loads(reply), image.reply(command))
        for row in json.loads(replies[0])["ok"]["actors"]:
            phases.update([row["phase"]] if isinstance(row["phase"], str) else row["phase"])
    same("the phases", sorted(phases), ["answer", "fault", "frames", "fresh", "start"])
    return f"{len(good_files())} files"


STATUS, CHECKPOINT = {"cmd": "status"}, {"cmd": "checkpoint"}
ONE_EDIT = {"class": "Object", "source": "a ^1"}
# Edits of a file, around those of a run and of a table.
EDITS = (0, 2047, 2049, 4095, 4096)


def edits_left(program):
    """What a status tells of an image that goes on from a file, behind one edit more, and behind a checkpoint. Of a table that is full
    there is one status alone."""
    for count in EDITS:
        file = {"actors": [], "edits": [{"install": ONE_EDIT}] * count, "format": 2, "names": [], "posts": 5, "senders": [], "steps": 7}
        commands = [STATUS, {**ONE_EDIT, "cmd": "method"}, STATUS, CHECKPOINT, STATUS] if count < EDITS[-1] else [STATUS]
        about, image = f"{count} edits", Loaded(file)
        lines = [json.dumps(command).encode() for command in commands]
        told = map(json.loads, program.replies(about, program.put("file", file_text(file).encode()), lines, settings(256, 64)))
        epochs = []
        for command, reply in zip(commands, told, strict=True):
            wanted = image.reply(command)
            if command == STATUS:
                epochs.append(reply["ok"]["epoch"])
                wanted["ok"]["epoch"] = epochs[-1]
            same(f"{about}: {command}", reply, wanted)
        same(f"{about}: the epochs", [epochs.index(it) for it in epochs], [0, 0, 2][: len(epochs)])
    return f"{len(EDITS)} files"


TRIALS = (each_command, actors_told, edits_left)
