"""What was typed is kept where the program has ended before its image was saved."""

import contextlib
import os
import tempfile

from .files import definitions


def written(session):
    """Writes the classes and methods that the session knows to a file of a new name, and says in which they are; empty if none is."""
    lines = definitions(session.known)
    if not lines:
        return ""
    for folder in (os.curdir, tempfile.gettempdir()):
        with contextlib.suppress(OSError):
            return f"; the classes and methods of this session are in {write(folder, lines)}, for  :load"
    return ""


def write(folder, lines):
    """The name of the file."""
    for number in range(1, 1000):
        name = os.path.normpath(os.path.join(folder, f"lost{number}.st"))
        with contextlib.suppress(FileExistsError), open(name, "x", encoding="utf-8") as file:
            file.writelines(line + "\n" for line in lines)
            return name
    raise FileExistsError(folder)
