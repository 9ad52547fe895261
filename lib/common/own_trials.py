"""The trials of a tool for users. They are the repository's own, in its tools/, and no part of what is copied to another machine."""

import importlib
import os
import sys

from .repository import TOP


def trials_of(name):
    """The module with the trials of a tool. Ends the program where they are not there."""
    folder = os.path.join(TOP, "tools")
    if not os.path.isdir(os.path.join(folder, f"{name}_trials")):
        sys.exit(f"bin/{name}: its trials are in the repository alone, in tools/{name}_trials")
    sys.path.insert(1, folder)
    return importlib.import_module(f"{name}_trials.trials")
