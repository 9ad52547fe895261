"""Measures lines that are made to take long, and names the worst.

    tools/slow-input PROGRAM [--worst N] [--trial NAME]..

PROGRAM is `crates/actorimage/out/actorimage`. Each trial is a session, which is run twice, and up to three times more while one of its
lines is too slow; what a line takes is the least of its processor times, as Linux counts them for the program's thread. A line may
take five milliseconds. A `run` here has one quantum. The worst N kinds of lines are printed (20 by default), and the status is 1 if a
line that is not known to be slow takes longer.

It needs Linux with /proc/PID/schedstat; and gcc for names whose hashes meet, without which these are left out.
"""

import argparse
import os
import sys

from . import trials
from .session import Session

# In milliseconds.
MOST = 5.0
TIMES, MORE_TIMES = 2, 3
# A line over so many bytes ends its session, so none is asked.
LONGEST = 8192
# Lines that are known to take longer, each with what it took when it was last looked at. docs/SECURITY.md says why.
KNOWN = {trials.MEETING: 70, trials.NEW_MEETING: 10, trials.VARIABLES: 12, trials.CHECKPOINT: 70}


def arguments():
    plain = argparse.RawDescriptionHelpFormatter
    parser = argparse.ArgumentParser(prog="tools/slow-input", description=__doc__, formatter_class=plain)
    parser.add_argument("program", metavar="PROGRAM")
    parser.add_argument("--worst", type=int, default=20, metavar="N")
    parser.add_argument("--trial", action="append", choices=[it.__name__ for it in trials.TRIALS], metavar="NAME")
    return parser.parse_args()


def measured(program, lines):
    """What each line of a session takes, and its reply."""
    with Session(program, ("--capacity", "1024")) as session:
        return [session.ask(line) for _, line in lines]


def is_slow(name, took):
    return name is not None and name not in KNOWN and took > MOST


def worst_of(program, trial):
    """How many lines a trial has, and the worst of each name with its reply. Where one is too slow, the trial is run again: another
    program may have had the processor's caches meanwhile."""
    lines = [it for it in trial() if len(it[1]) <= LONGEST]
    least = [(reply, taken) for reply, taken in measured(program, lines)]
    for time in range(1, TIMES + MORE_TIMES):
        if time >= TIMES and not any(is_slow(name, taken) for (name, _), (_, taken) in zip(lines, least)):
            break
        again = measured(program, lines)
        for (_, line), (reply, _), (other, _) in zip(lines, least, again):
            if reply != other or not reply:
                sys.exit(f"tools/slow-input: {trial.__name__}: {line[:100]!r} is answered {reply!r} and {other!r}")
        least = [(reply, min(taken, other)) for (reply, taken), (_, other) in zip(least, again)]
    found = {}
    for (name, _), (reply, taken) in zip(lines, least):
        if name is not None and taken > found.get(name, (0, b""))[0]:
            found[name] = taken, reply
    return len(lines), found


def main():
    given = arguments()
    program = os.path.realpath(given.program)
    count, found = 0, {}
    for trial in trials.TRIALS:
        if given.trial is None or trial.__name__ in given.trial:
            lines, worst = worst_of(program, trial)
            count += lines
            found.update(worst)
    ranked = sorted(found.items(), key=lambda item: -item[1][0])
    for name, (took, reply) in ranked[: given.worst]:
        print(f"{took:8.3f} ms  {name}: {reply[:70].decode(errors='replace').strip()}")
    slow = [name for name, (took, _) in ranked if is_slow(name, took)]
    known = sum(name in KNOWN for name in found)
    print(f"tools/slow-input: {count:,} lines, {len(slow)} kinds over {MOST:g} ms that are not known, {known} known")
    sys.exit(1 if slow else 0)
