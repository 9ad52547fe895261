"""What the trials have in common."""

import json
import os
import subprocess
import sys

from common.repository import TOP, path_of_tool
from inspect_parts.reading import read_image
from inspect_parts.refused import BadImage
from trial_parts.patience import PATIENCE

INSPECT = path_of_tool("inspect")
FILES = os.path.join(TOP, "tests", "inspect")
EXAMPLES = os.path.join(TOP, "examples")
END = ".image.json"


def same(found, wanted):
    if found != wanted:
        raise AssertionError(f"there is {found!r} and not {wanted!r}")


def read(path):
    with open(path, "rb") as file:
        return file.read()


def good_files():
    """The paths of the good files by their names: those of the trials, and the examples."""
    found = {name[: -len(END)]: os.path.join(EXAMPLES, name) for name in os.listdir(EXAMPLES) if name.endswith(END)}
    bad = bad_files()
    paths = [os.path.join(FILES, name) for name in os.listdir(FILES) if name.endswith(".json")]
    found.update({os.path.basename(path)[: -len(".json")]: path for path in paths if path not in bad})
    return dict(sorted(found.items()))


def bad_files():
    """The paths of the malformed files: beside each is its refusal."""
    names = sorted(name[: -len(".refusal")] for name in os.listdir(FILES) if name.endswith(".refusal"))
    return [os.path.join(FILES, name) for name in names]


def refusal(file):
    """What a file is refused for, as `PLACE: PATH`; `good` if it is taken. The file is a JSON value, or bytes."""
    data = file if isinstance(file, bytes) else json.dumps(file).encode()
    try:
        read_image(data)
    except BadImage as bad:
        return f"{bad.place}: {bad.path or 'the file'}"
    return "good"


def run(*words, **more):
    """The tool as a program."""
    return subprocess.run([sys.executable, INSPECT, *words], capture_output=True, timeout=PATIENCE, **more)
