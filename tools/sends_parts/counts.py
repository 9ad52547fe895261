"""How turns end, and how their sends are found.

The lines of a program are done in turn, for an actor of class A. A line is a class and the source of a method for it; or `-`, a class
and the name of a method that is removed; or `=`, the numbers of the sends of the actor's next turn, of `go`, which their sites had, the
lookup cache had, and walks found, and how the turn ends.

The numbers are sums over all methods that the program has then, of what `stats` tells behind the turn and did not tell before it. What
`stats` tells of each site is compared too: it has to be the same with all quanta.
"""

import json

from .image import Script, wrong_programs

QUANTA = (1, 2, 3, 7, 100, 120, 1000)
WAYS = ("site", "global", "walk")
# As many as a `run` may have.
ALL = {"cmd": "run", "quanta": 1000000}


class Turn:
    """A turn of a script: the places of the replies to `stats` before and behind it, and the sends that are wanted."""

    def __init__(self, number, before, behind, wanted):
        self.number = number
        self.before = before
        self.behind = behind
        self.wanted = wanted

    def sends(self, replies):
        def total(places):
            return [sum(site[way] for place in places for site in replies[place]["ok"]["sites"]) for way in WAYS]

        return [behind - before for before, behind in zip(total(self.before), total(self.behind))]


class Program:
    """A script of a program's lines, with its turns."""

    def __init__(self, lines):
        self.script = Script()
        self.methods = {}
        self.turns = []
        for line in lines:
            if line.startswith("= "):
                self.turn(*line[2:].split(" ", 3))
            elif line.startswith("- "):
                del self.methods[self.script.remove(line[2:])]
            else:
                self.methods[self.script.install(line)] = True

    def asked(self):
        """The places at which the methods that are there are asked for their sites."""
        return [self.script.ask({"class": name, "cmd": "stats", "selector": selector}) for name, selector in self.methods]

    def turn(self, site, by_global, walk, ending):
        number, before = len(self.turns) + 1, self.asked()
        self.script.post_go(0)
        self.script.ask(ALL)
        self.script.ask({"actor": 0, "cmd": "outcome", "turn": number}, {"ok": json.loads(ending)})
        self.turns.append(Turn(number, before, self.asked(), [int(site), int(by_global), int(walk)]))

    def play(self, program, quantum):
        """What is told of all sites, and what is wrong, if something is."""
        replies, why = self.script.play(program, quantum)
        if why:
            return None, why
        for turn in self.turns:
            if turn.sends(replies) != turn.wanted:
                return None, f"the sends of turn {turn.number} were found {turn.sends(replies)}, not {turn.wanted}"
        return [[replies[place] for place in turn.before + turn.behind] for turn in self.turns], None


def try_program(program, lines):
    """What is wrong with the first quantum with which something is."""
    if not any(line.startswith("= ") for line in lines):
        return "it has no turn"
    first = None
    for quantum in QUANTA:
        sites, why = Program(lines).play(program, quantum)
        first = first or sites
        if why or sites != first:
            return f"with quanta of {quantum} " + (why or "a site is told otherwise")
    return None


def try_all(program, path):
    return wrong_programs(path, lambda lines: try_program(program, lines))
