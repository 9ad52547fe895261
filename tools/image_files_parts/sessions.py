"""A script that is cut into sessions on one image file, beside the second implementation, and beside the same script whole."""

import json

from common.compact import compact
from inspect_trials.try_common import read
from inspect_trials.written import Written, file_text
from second_opinion.failing import Failures

from .program import same, settings

# Other commands than these change nothing where they are refused; a refused post may bring names.
TRIED = ("post", "outcome", "fault", "run")
# A script that runs more is too long for the second implementation.
MOST_STEPS = 100_000
# What is counted anew in each session.
UNCOUNTED = {"global": 0, "sends": 0, "site": 0, "state": "empty", "walk": 0}


class Kept(Written):
    """An image that is saved and loaded between sessions. Its turns keep the numbers that they have in the whole script; `begun`
    says for each actor how many of them were begun before the session, which numbers its turns from the next one on."""

    begun = ()

    def load(self):
        """Begins anew with what no file keeps: the numbers of turns, which of them failed, and which actor had the last quantum."""
        self.last = -1
        self.failures = Failures(self.steps)
        self.begun = [actor.accepted - len(actor.pending) for actor in self.actors]

    def earlier(self, number):
        return self.begun[number] if number < len(self.begun) else 0

    def take(self, command, whole):
        """The reply; `whole` is that to the command in the whole script."""
        if whole.get("error") == "BadCommand" or command["cmd"] == "stats":
            return whole
        if "ok" in whole or command["cmd"] in TRIED:
            return self.reply(command)
        return whole

    def compare(self, about, path):
        """The file is that of the image."""
        same(f"{about}: what is saved", read(path), file_text(self.file()).encode())


class Counted:
    """In place of an image whose turns are too long for the second implementation: only clients post there, and the file says
    what is pending."""

    def __init__(self):
        self.accepted, self.begun, self.file = {}, {}, None

    def load(self):
        actors = self.file["actors"] if self.file else ()
        self.begun = {number: self.accepted.get(number, 0) - len(actor["pending"]) for number, actor in enumerate(actors)}

    def earlier(self, number):
        return self.begun.get(number, 0)

    def take(self, command, whole):
        if command["cmd"] == "post" and "ok" in whole:
            self.accepted[command["actor"]] = whole["ok"]["turn"]
        return whole

    def compare(self, about, path):
        self.file = json.loads(read(path))


def command_of(line):
    """The command of a line, if it is JSON of an object with a name."""
    try:
        found = json.loads(line)
    except ValueError:
        return {"cmd": None}
    return found if isinstance(found, dict) and "cmd" in found else {"cmd": None}


class Cut:
    """A script in sessions. `whole` are the replies of one session of all lines. A line and its reply are those of the whole
    script, but for what a file does not keep: turns have other numbers, and turns that ended before the one that stands in the
    file have none. Where runs begin with another actor, the second implementation says what follows."""

    def __init__(self, program, about, lines, quantum=256, capacity=64):
        self.program, self.about, self.lines = program, about, lines
        self.options = settings(quantum, capacity)
        self.path = program.at("cut")
        self.whole = program.replies(f"{about}: the whole", program.at("whole"), lines, self.options)
        same(f"{about}: replies to the whole", len(self.whole), len(lines))
        if self.steps() > MOST_STEPS:
            self.image = Counted()
        else:
            self.image = Kept(quantum, capacity)
            self.compare_whole(Kept(quantum, capacity))

    def steps(self):
        """How many steps the whole script runs."""
        replies = [json.loads(reply) for reply in self.whole]
        return sum(reply["ok"].get("steps", 0) for reply in replies if "ok" in reply)

    def compare_whole(self, image):
        """The replies to the whole script are those of the second implementation, and so is its file."""
        for line, reply in zip(self.lines, self.whole):
            same(f"{self.about}, whole: {line}", json.loads(reply), image.take(command_of(line), json.loads(reply)))
        image.compare(f"{self.about}, whole", self.program.at("whole"))

    def sessions(self, lengths):
        """All lines, in sessions of so many. Answers how many sessions there were."""
        first = count = 0
        while first < len(self.lines):
            behind = min(len(self.lines), first + next(lengths))
            self.session(first, behind)
            first, count = behind, count + 1
        return count

    def session(self, first, behind):
        """One session of these lines."""
        self.image.load()
        asked = [(place, line) for place in range(first, behind) if (line := self.line(place)) is not None]
        about = f"{self.about}, lines {first + 1} to {behind}"
        replies = self.program.replies(about, self.path, [line for _, line in asked], self.options)
        same(f"{about}: replies", len(replies), len(asked))
        found = {place: reply for (place, _), reply in zip(asked, replies)}
        for place in range(first, behind):
            wanted = self.wanted(place)
            if place in found:
                same(f"{self.about}, line {place + 1}: {self.lines[place]}", found[place], wanted)
        self.image.compare(about, self.path)

    def line(self, place):
        """A line with the numbers of the session; None where the session has no such turn."""
        command = command_of(self.lines[place])
        if command["cmd"] not in ("outcome", "fault") or b"BadCommand" in self.whole[place]:
            return self.lines[place]
        turn = command["turn"] - self.image.earlier(command["actor"])
        return None if turn < 0 else json.dumps({**command, "turn": turn}).encode()

    def wanted(self, place):
        """The reply, with the numbers of the session."""
        command, whole = command_of(self.lines[place]), json.loads(self.whole[place])
        reply = self.image.take(command, whole)
        if command["cmd"] == "post" and "ok" in reply:
            reply = {"ok": {"turn": reply["ok"]["turn"] - self.image.earlier(command["actor"])}}
        if command["cmd"] == "actors" and "ok" in reply:
            reply = {"ok": {**reply["ok"], "actors": [self.counted(row) for row in reply["ok"]["actors"]]}}
        if command["cmd"] == "faults" and "ok" in reply:
            reply = {"ok": {**reply["ok"], "faults": [self.numbered(row) for row in reply["ok"]["faults"]]}}
        if command["cmd"] == "inspect" and reply.get("ok", {}).get("turn") is not None:
            reply = {"ok": {**reply["ok"], "turn": reply["ok"]["turn"] - self.image.earlier(command["actor"])}}
        if command["cmd"] == "stats" and "ok" in reply:
            reply = {"ok": {"sites": [{**site, **UNCOUNTED} for site in reply["ok"]["sites"]]}}
        return compact(reply).encode()

    def numbered(self, row):
        """What is told of a turn that failed, with the number of the session."""
        return {**row, "turn": row["turn"] - self.image.earlier(row["actor"])}

    def counted(self, row):
        """What is told of an actor, with its messages counted from the session on."""
        before = self.image.earlier(row["actor"])
        return {**row, "accepted": row["accepted"] - before, "begun": row["begun"] - before}
