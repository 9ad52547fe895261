"""What the trials have in common."""

import os
import subprocess
import sys

from common.repository import path_of_tool
from trial_parts.patience import PATIENCE

WORKSPACE = path_of_tool("workspace")
COUNTER = ["Counter : Object | count |", "Counter >> start  count := 0", "Counter >> bump  count := count + 1. ^count"]
SPIN = ["Spin : Object", "Spin >> goOn  ^true", "Spin >> spin  [self goOn] whileTrue: [nil]. ^7", "s := Spin actor"]


def same(found, wanted):
    if found != wanted:
        raise AssertionError(f"there is {found!r} and not {wanted!r}")


def piped(program, lines, *options, **more):
    text = "".join(line + "\n" for line in lines).encode()
    command = [sys.executable, WORKSPACE, "--program", program, *options]
    return subprocess.run(command, input=text, capture_output=True, timeout=PATIENCE, **more)


def shell_program(folder, text):
    """The path of a program that is a text for the shell."""
    path = os.path.join(folder, "program")
    with open(path, "w", encoding="utf-8") as file:
        file.write("#!/bin/sh\n" + text + "\n")
    os.chmod(path, 0o700)
    return path
