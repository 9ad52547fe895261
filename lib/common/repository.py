"""Where the repository is, or a copy of bin/, lib/ and clients/ alone; and what is in it."""

import os

TOP = os.path.dirname(os.path.dirname(os.path.dirname(os.path.realpath(__file__))))
# Builds the program where it is older than its sources, and runs it.
PROGRAM = os.path.join(TOP, "actorimage")


def path_of_tool(name):
    """The path of a tool for users."""
    return os.path.join(TOP, "bin", name)
