"""Trials on files that are changed at one place."""

import collections
import concurrent.futures
import multiprocessing
import os
import random
import tempfile

from inspect_trials.try_common import good_files, read
from inspect_trials.try_generated import files
from inspect_trials.try_limits import LIMITS
from inspect_trials.written import file_text

from .going_on import go_on
from .mutating import mutated
from .program import Different, Program
from .said import try_file

WORKERS = 2
BATCH = 250
# How many scripts give files to be changed, and how long a file may be.
SCRIPTS = 6
LONGEST = 12_000
# Differences are of one kind if what is said of them begins alike.
ALIKE = 90


def texts(rng):
    """The bytes of good files: of the trials, of random scripts, and at limits."""
    found = [read(path) for path in good_files().values()] * 5
    found += [file_text(file).encode() for file in files(rng, SCRIPTS)]
    found += [file_text(make(most)).encode() for make, most, _ in LIMITS]
    return [text for text in found if len(text) <= LONGEST]


def try_batch(path, seed, first, behind, given):
    """What became of some changes, and the differences with the files that show them."""
    ends, differences = collections.Counter(), []
    with tempfile.TemporaryDirectory() as folder:
        program = Program(path, folder)
        for number in range(first, behind):
            rng = random.Random(f"{seed} {number}")
            kind, data = mutated(rng, rng.choice(given))
            try:
                said = try_file(program, kind, data)
                ends[said.place or "good"] += 1
                if said.place is None:
                    go_on(program, kind, data)
            except Different as difference:
                differences.append((str(difference), data))
    return ends, differences


def try_all(path, count, seed):
    """The status."""
    given = texts(random.Random(seed))
    ends, kinds = collections.Counter(), {}
    fork = multiprocessing.get_context("fork")
    with concurrent.futures.ProcessPoolExecutor(WORKERS, fork) as pool:
        batches = [
            pool.submit(try_batch, path, seed, first, min(count, first + BATCH), given) for first in range(0, count, BATCH)
        ]
        for batch in concurrent.futures.as_completed(batches):
            more, differences = batch.result()
            ends.update(more)
            for text, data in differences:
                kinds.setdefault(text[:ALIKE], []).append((text, data))
    report(kinds)
    told = ", ".join(f"{number:,} {end}" for end, number in sorted(ends.items()))
    print(f"tools/image-files: {count:,} changes of {len(given)} files: {told}; {len(kinds)} kinds of differences")
    return 1 if kinds else 0


def report(kinds):
    """Prints each kind of difference once, with the shortest file that shows it, which is kept."""
    folder = tempfile.mkdtemp(prefix="image-files-") if kinds else None
    for number, found in enumerate(kinds.values()):
        text, data = min(found, key=lambda pair: len(pair[1]))
        kept = os.path.join(folder, f"{number}.json")
        with open(kept, "wb") as file:
            file.write(data)
        print(f"tools/image-files: {len(found)} times, as in {kept}: {text}")
