"""The image in which programs run, and scripts of a built program."""

import concurrent.futures
import json
import os
import re
import subprocess

from common.compact import compact
from trial_parts.patience import PATIENCE

# The classes with their superclasses and their own instance variables.
CLASSES = [("A", "Object", ["s"]), ("B", "A", []), ("C", "B", []), ("D", "A", []), ("E", "Object", []), ("F", "E", [])]


def programs(path):
    """The programs of a file: the number of each one's first line, and its lines."""
    with open(path) as file:
        numbered = [(number, line.rstrip("\n")) for number, line in enumerate(file, 1) if not line.startswith("#")]
    found = []
    for number, line in numbered:
        if not line:
            found.append((number + 1, []))
        elif found:
            found[-1][1].append(line)
        else:
            found.append((number, [line]))
    return [(number, lines) for number, lines in found if lines]


def wrong_programs(path, try_program):
    """What is wrong with the programs of a file, by what is said of each, and how many there are. They are tried side by side."""
    tried = programs(path)
    with concurrent.futures.ThreadPoolExecutor(os.cpu_count()) as pool:
        told = list(pool.map(try_program, [lines for _, lines in tried]))
    return [f"{path}:{number}: {why}" for (number, _), why in zip(tried, told) if why], len(tried)


def selector_of(source):
    """The selector of a method, whose pattern has one space between two words."""
    keywords = re.match(r"(?:\w+: \w+ )+", source)
    return "".join(re.findall(r"\w+:", keywords[0])) if keywords else source.split()[0]


class Script:
    """Commands, and what is to be known of each reply."""

    def __init__(self, actors=1):
        self.commands = []
        self.wanted = []
        self.posts = 0
        for name, above, slots in CLASSES:
            self.ask({"cmd": "define", "name": name, "slots": slots, "super": above})
        for _ in range(actors):
            self.ask({"class": "A", "cmd": "actor"})

    def ask(self, command, wanted=None):
        """Asks what is answered so, or is not refused where no answer is given. The answer is its place."""
        self.commands.append(command)
        self.wanted.append(wanted)
        return len(self.commands) - 1

    def install(self, line):
        """A line has a class and the source of a method."""
        name, _, source = line.partition(" ")
        self.ask({"class": name, "cmd": "method", "source": source})
        return name, selector_of(source)

    def remove(self, line):
        name, selector = line.split()
        self.ask({"class": name, "cmd": "remove", "selector": selector})
        return name, selector

    def post_go(self, actor):
        self.posts += 1
        self.ask({"actor": actor, "args": [], "cmd": "post", "selector": "go", "sender": 1, "seq": self.posts})

    def play(self, program, quantum):
        """The replies, and what is wrong with the first wrong one, if one is."""
        text = "".join(json.dumps(command) + "\n" for command in self.commands)
        words = [program, "script", "--quantum", str(quantum)]
        ended = subprocess.run(words, input=text, capture_output=True, text=True, timeout=PATIENCE)
        replies = ended.stdout.splitlines()
        if ended.returncode or len(replies) != len(self.commands):
            return None, f"it ends with status {ended.returncode} and {len(replies)} replies, and says {ended.stderr!r}"
        for command, wanted, reply in zip(self.commands, self.wanted, replies):
            if reply != compact(wanted) if wanted else not reply.startswith('{"ok":'):
                return None, f"the reply to {compact(command)} is {reply}" + (f", not {compact(wanted)}" if wanted else "")
        return [json.loads(reply) for reply in replies], None
