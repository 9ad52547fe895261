"""Trials on files that are cut off."""

from inspect_trials.try_common import good_files, read

from .program import same
from .said import only_check, try_file

# Which good files, and after how many bytes each is cut.
CUTS = {"message-waits": 1, "everything": 97}


def cut(program):
    """A file that is cut before its last bracket is no JSON; without its newline it is whole."""
    cuts = 0
    for name, step in CUTS.items():
        text = read(good_files()[name])
        for end in range(0, len(text) - 2, step):
            only_check(program, f"{name}, its first {end} bytes", text[:end], "json")
            cuts += 1
        said = try_file(program, f"{name} before its last bracket", text[:-2])
        same(f"{name} before its last bracket: place", said.place, "json")
        try_file(program, f"{name} without its newline", text[:-1])
    return f"{cuts + 2 * len(CUTS)} cuts"


TRIALS = (cut,)
