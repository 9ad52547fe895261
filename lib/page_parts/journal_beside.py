"""The journal that may lie beside an image file, with what happened since the file was saved. A page on the file does not do it again."""

import hashlib
import json
import os

# The first line of a journal has not half as many bytes.
LONGEST_FIRST = 1_024


def begins(path):
    """The digest of the image that a journal goes on from, and whether lines stand behind that; None where there are no lines at all."""
    with open(path, "rb") as file:
        first = file.readline(LONGEST_FIRST)
        if not first.startswith(b"{"):
            return None
        try:
            return json.loads(first)["journal"]["image"], file.read(1) == b"{"
        except (ValueError, KeyError, TypeError):
            return "", True


def journal_beside(path, data):
    """What is said of a journal beside a file with these bytes; empty where none has anything that the file has not."""
    digest, others = hashlib.sha256(data).hexdigest(), ""
    for beside in (f"{path}.journal", f"{path}.journal.new"):
        if not os.path.lexists(beside):
            continue
        name, of_file = os.path.basename(beside), os.path.basename(path)
        try:
            found = begins(beside)
        except OSError as error:
            return f"A journal lies beside this file, {name}, and what is in it is not shown here: it cannot be read ({error.strerror})."
        if found and found[0] == digest:
            how = f"actorimage replay {of_file} --journal {name} --image NEW writes a file with both."
            return f"What happened since this file was saved is in the journal beside it, {name}, and not shown here: {how}" if found[1] else ""
        if found:
            others = f"A journal lies beside this file, {name}, which goes on from another image; what is in it is not shown here."
    return others
