"""Tries how a built program reads, checks and writes image files.

    tools/image-files [--kills N] PROGRAM [TRIAL..]
    tools/image-files --mutate N [--seed N] PROGRAM

PROGRAM is `crates/actorimage/out/actorimage`. What it is to say of a file, and what it is to write, is what lib/inspect_parts
and the second implementation say and write. A line for each kind of trial tells how many there were; at the first difference
the status is 1. Where trials are named, those alone are run. --kills says how often a server is killed while it saves.

--mutate changes good files in N ways, each at one place, and tries no more than that. A changed file is refused by the place
that bin/inspect says, or it is taken, and what is written of it then is right. It prints every kind of difference once, and
keeps the files that show them.
"""

import argparse
import concurrent.futures
import multiprocessing
import os
import sys
import tempfile
import time
import traceback
from itertools import repeat

from inspect_parts.deep import deeply

from . import try_cuts, try_fewer, try_files, try_folders, try_full, try_going_on, try_held, try_limits, try_mutated, try_paths
from . import try_commands, try_kills, try_picked, try_random, try_refused, try_saves, try_scripts, try_served, try_unsaved, try_watched
from . import try_journal, try_journal_faults, try_replay, try_script_journal, try_whole
from .program import Different, Program

OF_FILES = (try_files, try_limits, try_full, try_cuts, try_paths, try_folders, try_whole, try_fewer)
OF_SAVES = (try_saves, try_unsaved, try_kills, try_journal, try_journal_faults, try_script_journal, try_replay)
OF_SESSIONS = (try_going_on, try_served, try_commands, try_held, try_watched, try_refused, try_scripts, try_picked, try_random)
SEED = 20241107
# How many trials go on at once.
WORKERS = 2


def arguments():
    plain = argparse.RawDescriptionHelpFormatter
    parser = argparse.ArgumentParser(prog="tools/image-files", description=__doc__, formatter_class=plain)
    parser.add_argument("program", metavar="PROGRAM")
    parser.add_argument("trials", nargs="*", metavar="TRIAL", help="a trial by its name, as it stands before the colon of a line")
    parser.add_argument("--kills", type=int, default=try_kills.KILLS, metavar="N", help="kill a server so often (%(default)s)")
    parser.add_argument("--mutate", type=int, metavar="N", help="change good files in N ways, and nothing else")
    parser.add_argument("--seed", type=int, default=SEED, metavar="N")
    given = parser.parse_args()
    if not os.access(given.program, os.X_OK):
        sys.exit(f"tools/image-files: {given.program} is no program; build it first")
    unknown = [name for name in given.trials if name not in (it.__name__ for it in all_trials())]
    if unknown:
        sys.exit(f"tools/image-files: no trial {unknown[0]}; there are {', '.join(it.__name__ for it in all_trials())}")
    return given


def all_trials():
    return [trial for part in OF_FILES + OF_SAVES + OF_SESSIONS for trial in part.TRIALS]


def try_one(path, trial):
    """What is printed of a trial, and whether all was as it should be. A trial answers what it tried."""
    began = time.monotonic()
    with tempfile.TemporaryDirectory() as folder:
        try:
            tried = trial(Program(path, folder))
        except Different as difference:
            return f"{trial.__name__}: {difference}", False
        except Exception:
            return f"{trial.__name__} broke off:\n{traceback.format_exc()}", False
    return f"{trial.__name__}: {tried}, {time.monotonic() - began:.1f} seconds", True


def try_all(path, names):
    """The status. Two trials go on at once; what they say is printed in their order, up to the first difference."""
    trials = [trial for trial in all_trials() if not names or trial.__name__ in names]
    with concurrent.futures.ProcessPoolExecutor(WORKERS, multiprocessing.get_context("fork")) as pool:
        for text, is_well in pool.map(try_one, repeat(path), trials):
            print(f"tools/image-files: {text}", flush=True)
            if not is_well:
                pool.shutdown(cancel_futures=True)
                return 1
    return 0


def main():
    given = arguments()
    path = os.path.realpath(given.program)
    try_kills.KILLS = given.kills
    if given.mutate is None:
        sys.exit(deeply(lambda: try_all(path, given.trials)))
    sys.exit(deeply(lambda: try_mutated.try_all(path, given.mutate, given.seed)))
