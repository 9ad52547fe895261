"""Trials on scripts whose image is saved and loaded, or has a checkpoint, between every two lines."""

import json
import os
import re
from itertools import chain, repeat

from common.repository import TOP
from inspect_trials.try_common import EXAMPLES, FILES, read
from scripts_parts import texts

from .program import same, settings
from .sessions import MOST_STEPS, Cut, Kept, command_of

# The pages with sessions, in blocks of lines behind `> ` with their replies. What stands behind the fence are options.
PAGES = ("GUIDE.md", "PROTOCOL.md")
BLOCK = re.compile(r"^```lines *(?:--capacity (\d+))?\n(.*?)^```$", re.MULTILINE | re.DOTALL)
TYPED = re.compile(r"^> (.*)$", re.MULTILINE)


def files(folder):
    """The scripts of a folder with their names."""
    for name in sorted(os.listdir(folder)):
        if name.endswith(".jsonl"):
            yield name, read(os.path.join(folder, name)).splitlines()


def page_sessions():
    """The lines that are typed on each page, with the room of mailboxes there."""
    for page in PAGES:
        rooms = {}
        for capacity, block in BLOCK.findall(read(os.path.join(TOP, "docs", page)).decode()):
            rooms.setdefault(int(capacity or 64), []).extend(line.encode() for line in TYPED.findall(block))
        for capacity, lines in rooms.items():
            yield page, lines, capacity


def all_scripts():
    """Each script with its name, its quantum and the room of mailboxes."""
    for name, lines in files(EXAMPLES):
        yield name, lines, 256, 64
    for name, lines in files(FILES):
        yield name, lines, 1, 64
    for name, lines, capacity in page_sessions():
        yield name, lines, 256, capacity


def line_by_line(program):
    """Each line is a session of its own. Its reply is that in the whole script, but for what no file keeps."""
    count = sessions = 0
    for name, lines, quantum, capacity in all_scripts():
        count += 1
        sessions += Cut(program.within(str(count)), name, lines, quantum, capacity).sessions(repeat(1))
    return f"{count} scripts, {sessions} sessions"


CHECKPOINT = b'{"cmd":"checkpoint"}'


def worked_scripts():
    """The scripts of tests/scripts, as all_scripts has them."""
    for name in texts.names():
        for script in texts.scripts(name):
            yield script.name, [line.encode() for line in script.lines], script.quantum, script.capacity


class Anew(Kept):
    """An image that has a checkpoint behind each line. `begun` says for each actor how many turns it had begun before the last one."""

    def checkpoint(self, command):
        self.begun = [self.earlier(actor.number) + actor.accepted - len(actor.pending) for actor in self.actors]
        return super().checkpoint(command)

    def renumbered(self, command):
        """The command with the number that its turn has now; as it is, where its turn is forgotten."""
        if "turn" not in command:
            return command
        turn = command["turn"] - self.earlier(command["actor"])
        return {**command, "turn": turn} if turn >= 0 else command


def renumbered(lines, whole, quantum, capacity):
    """The lines with the numbers that turns have where there is a checkpoint behind each line, and the replies, by the second
    implementation, to each line and to each checkpoint. `whole` are the replies without checkpoints."""
    image = Anew(quantum, capacity)
    for line, reply in zip(lines, whole):
        asked, told = command_of(line), json.loads(reply)
        if told.get("error") != "BadCommand":
            command = image.renumbered(asked)
            line, asked = (line, asked) if command == asked else (json.dumps(command).encode(), command)
        yield line, image.take(asked, told), image.checkpoint({})


def with_checkpoints(program):
    """A checkpoint behind each line leaves the file that is saved as it is without, and the replies but for what it forgets: how
    turns ended, their numbers, and counts of messages and call sites. Where the second implementation runs the script too, it says
    which numbers the turns have, how those ended that are kept, and what each checkpoint has counted."""
    count = made = 0
    for name, lines, quantum, capacity in chain(all_scripts(), worked_scripts()):
        count += 1
        made += len(lines)
        options = settings(quantum, capacity)
        here = program.within(str(count))
        plain, often = here.at("plain"), here.at("often")
        wanted = here.replies(name, plain, lines, options)
        if steps_of(wanted) > MOST_STEPS:
            asked = [(line, None, None) for line in lines]
        else:
            asked = list(renumbered(lines, wanted, quantum, capacity))
        found = here.replies(name, often, [it for line, _, _ in asked for it in (line, CHECKPOINT)], options)
        for line, one, other, counted, (_, reply, counts) in zip(lines, wanted, found[::2], found[1::2], asked):
            same(f"{name}: {line}", kept(line, other), kept(line, one))
            if reply is not None and command_of(line)["cmd"] != "stats":
                same(f"{name}: {line}, behind a checkpoint", json.loads(other), reply)
            if counts is not None:
                same(f"{name}: the checkpoint behind {line}", json.loads(counted), counts)
        same(f"{name}: what is saved", read(often), read(plain))
    return f"{count} scripts, {made} checkpoints"


def steps_of(replies):
    """How many steps the runs of a script took."""
    return sum(it["ok"].get("steps", 0) for it in map(json.loads, replies) if "ok" in it)


def kept(line, reply):
    """A reply without what a checkpoint forgets."""
    if command_of(line)["cmd"] in ("outcome", "fault", "faults", "actors"):
        return None
    reply = json.loads(reply)
    if command_of(line)["cmd"] == "inspect" and "ok" in reply:
        return {**reply["ok"], "turn": None}
    return list(reply["ok"]) if "ok" in reply and command_of(line)["cmd"] in ("post", "stats") else reply


TRIALS = (line_by_line, with_checkpoints)
