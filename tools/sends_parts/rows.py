"""Where quanta end.

A program has the methods of two actors of class A, which are both sent `go`; what it says stands at the head of tests/rows.txt. The actors
have their quanta in turn: the first one's sends are found by lookups, the other's at their sites. For each size of quanta the steps of
each quantum are compared, and so is whether the turn has ended then, and how.
"""

import json

from .image import Script, wrong_programs

LIMITS = range(1, 53)
# So many steps are looked at where there is no end.
MOST = 110
PENDING = {"error": "Pending"}


def quanta(words, limit):
    """The steps of each quantum of an actor. At most `limit` are its own; a step of the image comes on top."""
    for place, word in enumerate(words):
        if word == "on":
            return
        if word == "act":
            continue
        steps = int(word)
        while steps > limit:
            yield limit
            steps -= limit
        yield steps + (words[place + 1 : place + 2] == ["act"])


class Program:
    """A script of a program's lines, with quanta of a size."""

    def __init__(self, lines, limit):
        self.script = Script(actors=2)
        for line in lines[:-1]:
            self.script.install(line)
        for actor in (0, 1):
            self.script.post_go(actor)
        words = lines[-1].split()[1:]
        self.endings = [{"ok": json.loads(word)} for word in words if word.startswith("{")]
        words = [word for word in words if not word.startswith("{")]
        self.take([limit] * (MOST // limit) if words == ["on"] else list(quanta(words, limit)))
        if words[-1] != "on":
            self.quantum(0, 0)

    def quantum(self, quanta, steps):
        self.script.ask({"cmd": "run", "quanta": 1}, {"ok": {"quanta": quanta, "steps": steps}})

    def take(self, steps):
        """Takes the quanta of both actors in turn. With the last one their turns end."""
        for place, count in enumerate(steps, 1):
            for actor in (0, 1):
                self.quantum(1, count)
                ending = self.endings[-1 if actor else 0] if self.endings and place == len(steps) else PENDING
                self.script.ask({"actor": actor, "cmd": "outcome", "turn": 1}, ending)


def try_program(program, lines):
    """What is wrong with the first size of quanta with which something is."""
    for limit in LIMITS:
        _, why = Program(lines, limit).script.play(program, limit)
        if why:
            return f"with quanta of {limit} {why}"
    return None


def try_all(program, path):
    return wrong_programs(path, lambda lines: try_program(program, lines))
