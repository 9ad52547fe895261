"""Trials on the scripts that are picked for the second implementation, saved and loaded between every two lines."""

from itertools import repeat

from second_opinion.picked import Taker, all_picked
from second_opinion.picked_actors import MANY
from second_opinion.scripts import Script

from .sessions import Cut


def picked(program):
    """All of them, but for one that fills the image with actors, and those that ask of one run of the program."""
    count = sessions = 0
    for each in all_picked():
        if each.text == MANY or each.is_of_one_run:
            continue
        script = Script(each.quantum, each.capacity, setup=())
        Taker(script).take(each.text)
        lines = [line.encode() for line in script.lines]
        count += 1
        sessions += Cut(program.within(str(count)), each.says, lines, each.quantum, each.capacity).sessions(repeat(1))
    return f"{count} scripts, {sessions} sessions"


TRIALS = (picked,)
