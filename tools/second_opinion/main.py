"""Compares the second reader with a built program, on sources and turns that are the same in every run.

    tools/second-opinion PROGRAM [--sources N] [--minutes N] [--seed N] [--briefly]
    tools/second-opinion PROGRAM --sharp

PROGRAM is `crates/actorimage/out/actorimage`. Compared are the replies to each command of scripts: which sources are refused, with which
kind and at which byte; which methods are removed or replaced, and which classes moved; what looks at classes, edits, actors and the image
show; which messages mailboxes take; how turns end, in how many quanta and steps, and of which epoch; what is told of turns that failed; how
often each call site sent; and, before all of this, where each send of some methods stands in its source.
How sends are found is not compared, but they have to be found in all three ways. Some scripts are picked by hand; the replies that are
said in these are asked of the second reader first, and where it gives others, the status is 3. Where it and the program differ, the status
is 1, and the shortest source and script that show it are printed; with --briefly only that they do. With --minutes it ends with the first
script that is compared after so many minutes. --sharp puts wrong rules into the second reader, one at a time, and says which of them no
source tells apart from the right ones.
"""

import argparse
import os
import sys
import threading
import time
from collections import Counter

from .compare import WAYS, Difference, differences, found
from .places import METHODS, compare_places
from .program import program_replies
from .scripts import all_scripts
from .sharp import try_wrong_rules

SEED = 20240607
SOURCES = 50_000
# What so many sources are to come to at least: sends that are found in each way, and turns that answer.
LEAST_SENDS = 200
LEAST_ANSWERS = 2000

# A source may open thousands of brackets before it is refused.
DEEPEST_CALLS = 200_000
STACK = 256 * 1024 * 1024


def arguments():
    plain = argparse.RawDescriptionHelpFormatter
    parser = argparse.ArgumentParser(prog="second-opinion", description=__doc__, formatter_class=plain)
    parser.add_argument("program", metavar="PROGRAM")
    parser.add_argument("--sources", type=int, default=SOURCES, metavar="N", help="how many random sources (%(default)s)")
    parser.add_argument("--minutes", type=float, metavar="N", help="end after so many minutes")
    parser.add_argument("--seed", type=int, default=SEED, metavar="N")
    parser.add_argument("--briefly", action="store_true", help="print nothing of a difference but that there is one")
    parser.add_argument("--sharp", action="store_true", help="try wrong rules in the second reader")
    return parser.parse_args()


def compare(program, seed, sources, briefly, minutes=None):
    """The status: 0 where there is no difference."""
    what, places = compare_places(program, seed, min(sources, METHODS))
    if what:
        if not briefly:
            print(what)
        print(f"tools/second-opinion: a difference within {places:,} places of sends")
        return 1
    read = turns = scripts = answers = 0
    ways = Counter()
    ends = None if minutes is None else time.monotonic() + 60 * minutes
    for script in all_scripts(seed, sources):
        if script.wrong and not briefly:
            print("\n".join(["tools/second-opinion: the second reader itself breaks a rule"] + script.wrong))
            return 3
        got = program_replies(program, script.commands, script.lines, script.quantum, script.capacity)
        scripts += 1
        read += script.sources
        turns += script.turns
        ways.update(found(got))
        answers += sum(reply.startswith('{"ok":{"answer":') for reply in got)
        if differences(script.replies, got):
            if not briefly:
                print(Difference(program, script, got).report())
            print(f"tools/second-opinion: a difference within {scripts:,} scripts, {read:,} sources and {turns:,} turns")
            return 1
        if ends is not None and time.monotonic() > ends:
            break
    told = ", ".join(f"{ways[way]:,} by {way}" for way in WAYS)
    print(f"tools/second-opinion: {places:,} places of sends, {scripts:,} scripts, {read:,} sources and {turns:,} turns, no difference")
    print(f"tools/second-opinion: sends of sites: {told}")
    if ends is None and sources >= SOURCES and (min(ways[way] for way in WAYS) < LEAST_SENDS or answers < LEAST_ANSWERS):
        print(f"tools/second-opinion: too little was compared: {answers} answers, and sends are to be found often in all ways")
        return 1
    return 0


def main():
    given = arguments()
    program = os.path.realpath(given.program)
    if not os.access(program, os.X_OK):
        sys.exit(f"tools/second-opinion: {given.program} is no program; build it first")
    status = []

    def work():
        if given.sharp:
            status.append(try_wrong_rules(program))
        else:
            status.append(compare(program, given.seed, given.sources, given.briefly, given.minutes))

    sys.setrecursionlimit(DEEPEST_CALLS)
    threading.stack_size(STACK)
    worker = threading.Thread(target=work)
    worker.start()
    worker.join()
    # A worker that raised has printed why.
    sys.exit(status[0] if status else 3)
