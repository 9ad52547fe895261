"""Sessions on an image file, and checks of one, of which one allocation fails."""

import json
import os
import shutil
import subprocess
import tempfile

from inspect_trials.try_common import good_files, read
from trial_parts.patience import PATIENCE

from .scripts import NO_MEMORY, run
from .shim import Failing

# The image that a session goes on with, and the lines of the session.
FIRST = [
    '{"cmd":"define","name":"A","slots":["n"],"super":"Object"}',
    '{"class":"A","cmd":"method","source":"go ^3 tag"}',
    '{"class":"SmallInteger","cmd":"method","source":"tag ^1"}',
    '{"class":"A","cmd":"actor"}',
    '{"actor":0,"args":[],"cmd":"post","selector":"go","sender":1,"seq":1}',
]
# The first has two new names, which the file tells behind those of FIRST, in their order.
NAMES = ["go", "tag", "at:put:", "foo"]
LINES = [
    '{"actor":0,"args":[1,{"sym":"foo"}],"cmd":"post","selector":"at:put:","sender":1,"seq":2}',
    '{"cmd":"run"}',
    '{"actor":0,"cmd":"outcome","turn":2}',
]
# Another session, of one edit with three new names.
EDIT = ['{"class":"A","cmd":"method","source":"spare: x ^#other -> x"}']
NAMES_OF_EDIT = ["go", "tag", "spare:", "other", "->"]
# A session that saves in the middle, and a line that ends one by a refusal: then nothing is saved in the end.
SAVE, ENDING = '{"cmd":"save"}', " " * 8193
SAVING = [LINES[0], SAVE, *LINES[1:]]
# Good files that are loaded and saved by a session without lines. Together they have edits, values and phases of all kinds.
SAVED = ("loop", "message-waits", "moved", "varied")
# A good file that is checked, and a text that is no file's, with what is told of each.
CHECKED = "message-waits"
TOLD = '{"ok":{"actors":1,"classes":9,"edits":2}}\n'
NO_FILE, REFUSED = b"{}", '{"error":"BadImage","place":"shape"}\n'


class Session:
    """A session on a copy of a file, and what the folder holds afterwards."""

    def __init__(self, program, good, lines, failing=None):
        with tempfile.TemporaryDirectory() as folder:
            file = os.path.join(folder, "image")
            shutil.copyfile(good, file)
            self.lines = lines
            self.status, self.replies, self.said = run(program, lines, failing, ("--image", file))
            self.names = os.listdir(folder)
            self.data = read(file)


def goes_on(program, ended, wanted):
    """Whether a session that goes on from the file that is left, with the line that found no memory and those behind it, leaves the file
    that is wanted."""
    with tempfile.TemporaryDirectory() as folder:
        left = os.path.join(folder, "left")
        with open(left, "wb") as it:
            it.write(ended.data)
        session = Session(program, left, ended.lines[ended.replies.index(NO_MEMORY) :])
    return session.status == 0 and session.data == wanted.data


def what_is_wrong(program, kept, ended, wanted):
    """What is wrong with the end of a session, or None. What it may have kept of the file is the old one, or what it has saved."""
    if ended.names != ["image"]:
        return f"the folder holds {ended.names}"
    if ended.status == 0 and ended.replies == wanted.replies:
        return None if ended.data == wanted.data else "the file is not the one that is wanted"
    if NO_MEMORY in ended.replies and ended.status == 0:
        return None if goes_on(program, ended, wanted) else "a line that is asked again does not lead to the file that is wanted"
    if ended.status not in (1, 2) or "emory" not in ended.said:
        return f"it ended with status {ended.status} and said {ended.said!r}"
    if ended.data not in (*kept, wanted.data):
        return "the file is neither the old one nor the one that is wanted"
    if ended.replies != wanted.replies[: len(ended.replies)]:
        return f"the replies are {ended.replies}"
    return None


def told(what, wrong):
    """Whether nothing was wrong, which is printed."""
    print(f"{what}; {len(wrong)} were wrong")
    for it in wrong[:10]:
        print(f"  {it}")
    return not wrong


def check_sessions(program, shim, every, file, lines, about):
    """Sessions of these lines on a good file."""
    old, wanted = read(file), Session(program, file, lines)
    saved = [Session(program, file, lines[:place]).data for place, line in enumerate(lines) if line == SAVE]
    if wanted.status != 0:
        return told(f"sessions on {about}", [f"with ample memory it ended with status {wanted.status} and said {wanted.said!r}"])
    refused, kept, wrong = 0, 0, []
    for failing in Failing.each(shim, "files", every):
        ended = Session(program, file, lines, failing)
        refused += ended.status != 0
        kept += ended.data == old
        why = what_is_wrong(program, (old, *saved), ended, wanted)
        if why:
            wrong.append(f"allocation {failing.at}: {why}")
    if not refused:
        wrong.append("no session was refused: nothing was tried")
    return told(f"sessions on {about}: {failing.at} allocations, {refused} sessions refused, {kept} left the file as it was", wrong)


def unsaved_wrong(old, ended, wanted):
    """What is wrong with the end of a session that posts, saves, and is refused then, or None: the file has what was saved, and is else as
    it was."""
    if ended.names != ["image"]:
        return f"the folder holds {ended.names}"
    if ended.replies == wanted.replies:
        return None if ended.data == wanted.data else "the file is not what was saved"
    if ended.replies[1:2] == [NO_MEMORY] or len(ended.replies) < 2:
        fine = ended.status in (1, 2) and (len(ended.replies) == 3 or "emory" in ended.said)
        # A save may be made whose reply finds no memory.
        fits = ended.data == old or len(ended.replies) < 2 and ended.data == wanted.data
        return None if fits and fine else f"{ended.replies} and {ended.said!r}, and the file is not as it was"
    if ended.replies[0] == NO_MEMORY or len(ended.replies) == 2:
        told = json.loads(ended.replies[1])
        return None if told == {"ok": {"bytes": len(ended.data)}} else f"{told} is replied for {len(ended.data)} bytes"
    return f"the replies are {ended.replies}"


def check_unsaved(program, shim, every, file):
    """Sessions that save and are refused then."""
    lines = [LINES[0], SAVE, ENDING]
    old, wanted = read(file), Session(program, file, lines)
    refused, wrong = 0, []
    if wanted.data != Session(program, file, lines[:1]).data or len(wanted.replies) != 3:
        wrong.append(f"with ample memory the replies are {wanted.replies}")
    for failing in Failing.each(shim, "saves", every):
        ended = Session(program, file, lines, failing)
        refused += NO_MEMORY in ended.replies[1:2]
        why = unsaved_wrong(old, ended, wanted)
        if why:
            wrong.append(f"allocation {failing.at}: {why}")
    if not refused:
        wrong.append("no save was refused: nothing was tried")
    return told(f"sessions that are refused behind a save: {failing.at} allocations, {refused} saves found no memory", wrong)


def checked(program, file, failing=None):
    """The status of a check, and what it says on standard output and standard error."""
    ended = subprocess.run([program, "check", file], capture_output=True, text=True, env=failing.env if failing else None, timeout=PATIENCE)
    return ended.returncode, ended.stdout, ended.stderr


def is_starved(line, status, out, said):
    """Whether the end of a check says that memory ran out: by the refusal; or, where there was none for the line itself, by no more than
    a front of it and the status; or on standard error, where there was none before that."""
    if out == NO_MEMORY + "\n":
        return status == 1 and not said
    is_cut = line.startswith(out) and out != line
    return is_cut and (status in (1, 2) and "emory" in said or status == 1 and not said)


def check_checks(program, shim, every, file, wanted):
    """Checks of a file, which tell a line with ample memory, and have a status."""
    line, status = wanted
    starved, wrong = 0, []
    for failing in Failing.each(shim, "checks", every):
        ended = checked(program, file, failing)
        starved += ended[0] != status or ended[1] != line
        if ended != (status, line, "") and not is_starved(line, *ended):
            wrong.append(f"allocation {failing.at}: it ended with {ended}")
    if not starved:
        wrong.append("no check found no memory: nothing was tried")
    if ended != (status, line, ""):
        wrong.append(f"no allocation failed, and it ended with {ended}")
    return told(f"checks that tell {line.strip()}: {failing.at} allocations, {starved} checks found no memory", wrong)


def parts(program, shim, every, folder):
    """Whether all was well, of each part."""
    good, text = os.path.join(folder, "good"), os.path.join(folder, "text")
    status, _, said = run(program, FIRST, options=("--image", good))
    if status != 0:
        print(f"an image file is not written: {said}")
        yield False
        return
    of_lines = ((LINES, NAMES, "an image file"), (EDIT, NAMES_OF_EDIT, "one that is edited"), (SAVING, NAMES, "one that is saved twice"))
    for lines, wanted, about in of_lines:
        yield check_sessions(program, shim, every, good, lines, about)
        names = json.loads(Session(program, good, lines).data)["names"]
        yield told(f"the names {names}", [] if names == wanted else [f"they are to be {wanted}"])
    yield check_unsaved(program, shim, every, good)
    files = good_files()
    for name in SAVED:
        yield check_sessions(program, shim, every, files[name], [], os.path.basename(files[name]))
    with open(text, "wb") as it:
        it.write(NO_FILE)
    yield check_checks(program, shim, every, files[CHECKED], (TOLD, 0))
    yield check_checks(program, shim, every, text, (REFUSED, 1))


def check(program, shim, every):
    with tempfile.TemporaryDirectory() as folder:
        return all(list(parts(program, shim, every, folder)))
