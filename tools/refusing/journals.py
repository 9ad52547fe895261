"""Scripts that go on with a journal, of which one allocation fails."""

import json
import os
import shutil
import subprocess
import tempfile

from crashes_parts.journals import recovered

from .files import FIRST, SAVE, told
from .scripts import NO_MEMORY, run
from .shim import Failing

# What is done in the script that is killed, whose journal the others go on with.
BEFORE = [*FIRST, '{"cmd":"run"}', '{"actor":0,"args":[],"cmd":"post","selector":"go","sender":1,"seq":2}']
# The lines of each script. None of them runs actors, since a run that finds no memory has taken some of its steps.
LINES = [
    '{"actor":0,"args":[1,{"sym":"foo"}],"cmd":"post","selector":"at:put:","sender":1,"seq":3}',
    '{"class":"A","cmd":"method","source":"spare: x ^#other -> x"}',
    '{"cmd":"checkpoint"}',
    '{"class":"A","cmd":"actor"}',
    SAVE,
    '{"actor":1,"args":[{"ref":0}],"cmd":"post","selector":"spare:","sender":2,"seq":1}',
    '{"cmd":"define","name":"B","slots":["x","y"],"super":"A"}',
    '{"actor":1,"cmd":"close"}',
]
OPTIONS = ("--journal", "--image")


def killed(program, path):
    """Leaves the file and the journal of a script that is killed behind its last reply."""
    command = [program, "script", *OPTIONS, path]
    with subprocess.Popen(command, stdin=subprocess.PIPE, stdout=subprocess.PIPE, text=True) as script:
        script.stdin.write("".join(line + "\n" for line in BEFORE))
        script.stdin.flush()
        replies = [script.stdout.readline() for _ in BEFORE]
        script.kill()
    return all(reply.startswith('{"ok"') for reply in replies)


def without_names(image):
    """What an image's file has now beside its names, as a text: a refused line may have brought some."""
    return json.dumps({key: value for key, value in image.file().items() if key != "names"}, sort_keys=True)


def may_be_there(path, replies):
    """The images that may be there, by the second implementation: what a reply told that was passed on is there, and of what comes behind
    the last one some first lines may be."""
    image, _ = recovered(path)
    for line, reply in zip(LINES, replies):
        if reply != NO_MEMORY and line != SAVE:
            image.reply(json.loads(line))
    found = [without_names(image)]
    for line in LINES[len(replies) :]:
        if line != SAVE:
            image.reply(json.loads(line))
        found.append(without_names(image))
    return found


def what_is_wrong(before, path, ended):
    """What is wrong with the end of a script, or None."""
    status, replies, said = ended
    is_whole = status == 0 and len(replies) == len(LINES)
    if not is_whole and (status not in (1, 2) or "emory" not in said and "WriteFault" not in said):
        return f"it ended with status {status}, {len(replies)} replies, and said {said!r}"
    if is_whole and sorted(os.listdir(os.path.dirname(path))) != ["image"]:
        return f"the folder holds {os.listdir(os.path.dirname(path))}"
    if without_names(recovered(path)[0]) not in may_be_there(before, replies):
        return f"behind {replies} the image and its journal are another image"
    return None


def check(program, shim, every):
    """Whether all was well, which is printed."""
    ended_well, wrong = 0, []
    with tempfile.TemporaryDirectory() as folder:
        before = os.path.join(folder, "before")
        if not killed(program, before):
            return told("scripts with a journal", ["with ample memory a line is refused"])
        for failing in Failing.each(shim, "journals", every):
            with tempfile.TemporaryDirectory(dir=folder) as room:
                path = os.path.join(room, "image")
                for ending in ("", ".journal"):
                    shutil.copyfile(before + ending, path + ending)
                ended = run(program, LINES, failing, (*OPTIONS, path))
                ended_well += ended[0] == 0
                why = what_is_wrong(before, path, ended)
                if why:
                    wrong.append(f"allocation {failing.at}: {why}")
    return told(f"scripts with a journal: {failing.at} allocations, {ended_well} scripts ended well", wrong)
