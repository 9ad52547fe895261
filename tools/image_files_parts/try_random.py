"""Trials on random scripts, in which turns are cut by quanta, methods are edited, replaced and looked at, and the image is saved, in
sessions of random lengths."""

import random

from second_opinion.scripts import CutTurns
from second_opinion.sources import Sources

from .sessions import Cut

SEED = 20241103
SCRIPTS = 150
LINES = 60
LENGTHS = (1, 1, 2, 3, 5, 8, 13, 21)


def lengths(rng):
    while True:
        yield rng.choice(LENGTHS)


def at_random(program):
    """Replies and files are those of the second implementation."""
    rng = random.Random(SEED)
    sources, sessions = Sources(rng), 0
    for number in range(SCRIPTS):
        script = CutTurns(rng, sources, aside=("define", "look", "replace", "save")).grow(LINES)
        lines = [line.encode() for line in script.lines]
        cut = Cut(program.within(str(number)), f"random script {number}", lines, script.quantum, script.capacity)
        sessions += cut.sessions(lengths(rng))
    return f"{SCRIPTS} scripts, {sessions} sessions"


TRIALS = (at_random,)
