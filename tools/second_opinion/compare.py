"""Compares replies, and makes a script on which the two differ as short as it gets."""

import json
import re
from collections import Counter

from common.compact import compact

from .image import Image, TooManySteps
from .program import program_replies
from .scripts import SETUP

# The ways in which sends are found. The second reader knows of none.
WAYS = ("site", "global", "walk")
MOST_TRIALS = 3000
PATIENCE = 200_000


def sites_of(reply):
    """What a reply to `stats` tells of sites; None of another reply."""
    return json.loads(reply)["ok"]["sites"] if reply.startswith('{"ok":{"sites":[') else None


def without_ways(reply):
    """A reply without how sends were found, if it tells of as many sends as were found in the three ways."""
    sites = sites_of(reply)
    if sites is None or any(site["sends"] != sum(site[way] for way in WAYS) for site in sites):
        return reply
    return compact({"ok": {"sites": [{key: site[key] for key in ("selector", "sends", "super")} for site in sites]}})


def found(replies):
    """How many sends replies tell of that were found in each way."""
    return Counter({way: sum(site[way] for reply in replies for site in sites_of(reply) or ()) for way in WAYS})


def differences(expected, got):
    return [place for place, (mine, its) in enumerate(zip(expected, got)) if mine != without_ways(its)]


class Difference:
    """Commands on which the two differ, at the last of them."""

    def __init__(self, program, script, got):
        self.program = program
        self.quantum = script.quantum
        self.capacity = script.capacity
        self.trials = 0
        places = differences(script.replies, got)
        first = places[0]
        self.commands, self.expected, self.got = script.commands[: first + 1], script.replies[first], got[first]
        self.try_sources([script.commands[place] for place in places if "source" in script.commands[place]])
        self.drop_commands()
        self.shorten_sources()
        # A source that is nearly nothing now may be nothing at all.
        self.drop_commands()

    def try_sources(self, installs):
        """Takes the shortest source that differs by itself, where there is one."""
        for install in sorted(installs, key=lambda command: len(command["source"]))[:20]:
            if self.keep(SETUP + [install]):
                return

    def mine(self, commands):
        image = Image(self.quantum, self.capacity, PATIENCE)
        return [compact(image.reply(command)) for command in commands]

    def keep(self, commands):
        """Whether the two differ on these commands, which are kept then up to the first difference."""
        self.trials += 1
        if self.trials > MOST_TRIALS:
            return False
        try:
            expected = self.mine(commands)
        except (LookupError, TooManySteps):
            # A class, an actor or an epoch is missing now, or a loop does not end.
            return False
        lines = [json.dumps(command) for command in commands]
        its = program_replies(self.program, commands, lines, self.quantum, self.capacity)
        places = differences(expected, its)
        if not places:
            return False
        place = places[0]
        self.commands, self.expected, self.got = commands[: place + 1], expected[place], its[place]
        return True

    def drop_commands(self):
        size = max(1, len(self.commands) // 2)
        while size:
            place = 0
            while place < len(self.commands):
                if not self.drop(place, place + size):
                    place += size
            size //= 2

    def drop(self, start, stop):
        """Whether the commands are gone now. Where posts go, the turn that is asked for at the end has a lower number."""
        rest = self.commands[:start] + self.commands[stop:]
        if not rest:
            return False
        last = rest[-1]
        if last["cmd"] in ("outcome", "fault", "wait"):
            posts = [one for one in self.commands[start:stop] if one["cmd"] == "post" and one["actor"] == last["actor"]]
            if self.keep(rest[:-1] + [dict(last, turn=max(0, last["turn"] - len(posts)))]):
                return True
        return self.keep(rest)

    def shorten_sources(self):
        for place in reversed(range(len(self.commands))):
            for pattern in (r"\w+:?|\s+|.", r"."):
                self.shorten(place, pattern)

    def shorten(self, place, pattern):
        """Takes pieces out of one source, as many at once as can be."""
        if place >= len(self.commands) or "source" not in self.commands[place]:
            return
        pieces = re.findall(pattern, self.commands[place]["source"], re.S)
        size = max(1, len(pieces) // 2)
        while size:
            at = 0
            while at < len(pieces) and place < len(self.commands):
                if self.keep_source(place, pieces[:at] + pieces[at + size :]):
                    del pieces[at : at + size]
                else:
                    at += 1
            size //= 2

    def keep_source(self, place, pieces):
        shorter = dict(self.commands[place], source="".join(pieces))
        return self.keep(self.commands[:place] + [shorter] + self.commands[place + 1 :])

    def report(self):
        last = self.commands[-1]
        sources = [command["source"] for command in self.commands if "source" in command]
        lines = ["source: " + repr(source) for source in sources]
        lines += ["differs: " + last["cmd"], "  the second reader: " + self.expected, "  the program:       " + self.got]
        lines.append("script (--quantum %d --capacity %d):" % (self.quantum, self.capacity))
        return "\n".join(lines + [json.dumps(command) for command in self.commands])
