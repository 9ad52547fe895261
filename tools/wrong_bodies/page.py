"""The pages `crates/CRATE/wrong-bodies/README.md`, which list the edits of each crate. They also keep what trying the edits came to."""

import os
import re

from common.repository import TOP
from wrong_bodies.edits import OTHERS, by_of, crates_of, edits_of, function_of, read, title_of, write

HEAD = """# Wrong bodies of {}

Edits of the code of this crate that must be refused, each named for what it does. [PROOFS.md](../../../docs/PROOFS.md#wrong-bodies-that-are-refused) says what they are for and what the columns mean. `tools/wrong-bodies --list` writes this page, and `tools/wrong-bodies --try` its last two columns.
"""

COLUMNS = "| A body in which | Function | The gate | Refused by | At |\n|---|---|---|---|---|\n"


def path_of(name):
    """Where the page of a crate is."""
    return f"{TOP}/crates/{name}/{OTHERS}/README.md"


def there(name):
    """The page of a crate as it is, or nothing where there is none."""
    return read(path_of(name)) if os.path.isfile(path_of(name)) else ""


def results():
    """What the pages say of the edits that were tried: by what each was refused, and at which commit, by crate and title."""
    found = {}
    for name in crates_of(TOP):
        for line in there(name).split("\n"):
            cells = [cell.strip() for cell in line.strip("|").split("|")]
            if len(cells) == 5 and cells[4] and not set(cells[4]) <= {"-"} and cells[4] != "At":
                found[name, cells[0]] = (cells[3], cells[4])
    return found


def row(edit, is_tried, crate, name, known):
    by, at = known.get((name, title_of(edit)), ("", ""))
    named = by_of(edit)
    if named and named != by:
        at = ""
    cells = [title_of(edit), function_of(edit, crate), "yes" if is_tried else "", named or by, at]
    return "| " + " | ".join(cells).replace("|  |", "| |").replace("|  |", "| |") + " |\n"


def page(name, known):
    """The page that lists the edits of a crate, or nothing where it has none."""
    crate = f"{TOP}/crates/{name}"
    rows = [row(edit, is_tried, crate, name, known) for edit, is_tried in edits_of(crate)]
    return re.sub(r" +\|$", " |", f"{HEAD.format(name)}\n{COLUMNS}{''.join(rows)}", flags=re.M) if rows else ""


def wrong():
    """The crates whose pages are not what is to stand there."""
    known = results()
    return [name for name in crates_of(TOP) if there(name) != page(name, known)]


def store(known):
    """Writes the pages that are not what is to stand there. The page of a crate without edits goes."""
    for name in crates_of(TOP):
        text = page(name, known)
        if text and text != there(name):
            os.makedirs(os.path.dirname(path_of(name)), exist_ok=True)
            write(path_of(name), text)
        elif not text and there(name):
            os.remove(path_of(name))
