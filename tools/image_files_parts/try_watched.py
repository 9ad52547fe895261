"""Trials on a file that is changed while a server or a script has the image of it, or that has several names."""

import contextlib
import json
import os
import shutil
import stat
import subprocess

from inspect_trials.try_common import read
from trial_parts.patience import PATIENCE
from trial_parts.times import later

from .disks import NO_DISK, small_disk
from .program import Ended, named, refusal, same
from .try_held import ENDED, HELD, SECOND, alone, edit, texts, unsaved
from .try_served import not_begun, serve

# The bytes of a small disk, and those that are taken up, so that there is no room but for a file that is there.
DISK, FILL = 16 << 10, 12 << 10
CHANGED = "was changed by another process, and is NOT replaced: this image is saved in"


def backup(path):
    """Another image is copied over the file."""
    later(path)
    shutil.copyfile(path + ".other", path)


def moved(path):
    """Another image is moved into the place of the file."""
    os.rename(path + ".other", path)


def of_new_file(path):
    """The server's own new file is moved into the place of the file."""
    os.rename(path + ".new", path)


def written_again(path):
    """The file is written again with as many bytes."""
    later(path)
    with open(path, "r+b") as file:
        file.write(read(path))


def changed_beside(program):
    """A file that was changed while a server had it stays as it is then, and the image is saved beside it."""
    tried = 0
    for change in (backup, moved, of_new_file, written_again):
        path, one, two = texts(program)
        shutil.copyfile(path, path + ".other")
        found = []

        def talk(number, end, lines):
            edit(end, lines)
            change(path)
            found.append(read(path))

        same(f"{change.__name__}: a server", serve(program, path, talk), unsaved(f"{path} {CHANGED} {path}.kept1"))
        same(f"{change.__name__}: the file", [read(path)], found)
        same(f"{change.__name__}: what is saved", read(path + ".kept1"), two)
        same(f"{change.__name__}: is checked", program.check(path + ".kept1").status, 0)
        os.remove(path + ".kept1")
        with contextlib.suppress(FileNotFoundError):
            os.remove(path + ".other")
        alone(program, "file")
        tried += 1
    return f"{tried} servers"


def kept_names(program):
    """What is kept beside a file stays: the next image gets another name. A file that is gone is written anew."""
    path, one, two = texts(program)
    for number in (1, 2):

        def talk(_number, end, lines):
            edit(end, lines)
            written_again(path)

        same(f"server {number}", serve(program, path, talk), unsaved(f"{path} {CHANGED} {path}.kept{number}"))
    same("what is kept", (read(path), read(path + ".kept1"), read(path + ".kept2")), (one, two, two))

    def gone(_number, end, lines):
        edit(end, lines)
        os.remove(path)

    same("a file that is gone: the server", serve(program, path, gone), ENDED)
    same("a file that is gone: what is saved", read(path), two)
    alone(program, "file", "file.kept1", "file.kept2")
    return "3 servers"


def script_is_watched(program):
    """A script does not write over what was saved while it ran."""
    path, one, two = texts(program)
    command = [program.path, "script", "--image", path]
    with subprocess.Popen(command, stdin=subprocess.PIPE, stdout=subprocess.PIPE, stderr=subprocess.PIPE) as script:
        script.stdin.write(SECOND.replace(b"Second", b"Third") + b"\n")
        script.stdin.flush()
        same("the slow script", json.loads(script.stdout.readline()), {"ok": {"version": 2}})
        same("a quick one", program.script(path, SECOND).status, 0)
        out, err = script.communicate(timeout=PATIENCE)
    wanted = Ended(1, b"", named("WriteFault", f"{path} {CHANGED} {path}.kept1"))
    same("the end of the slow one", Ended(script.returncode, out, err), wanted)
    same("the file", read(path), two)
    same("what is kept", read(path + ".kept1"), two.replace(b"Second", b"Third"))
    alone(program, "file", "file.kept1")
    return "2 scripts"


def other_names(program):
    """A second server does not begin on the file of another one, by another name either, or once the new file is taken away."""
    path, one, two = texts(program)
    hard = program.at("hard")

    def talk(number, end, lines):
        edit(end, lines)
        os.link(path, hard)
        not_begun(program, "a second name", hard, "WriteFault", f"{hard} {HELD}", "another")
        os.remove(path + ".new")
        not_begun(program, "without the new file", path, "WriteFault", f"{path} {HELD}", "another")

    same("the server", serve(program, path, talk), ENDED)
    same("what is saved, and the other name", (read(path), read(hard)), (two, one))
    alone(program, "file", "hard")
    return "3 servers"


def made_for_the_owner(program):
    """A file that is made where none was has rights for its owner alone, whatever was left beside it."""
    for about, left in (("nothing", None), ("a new file", 0o644)):
        path = program.at("file")
        if left:
            os.chmod(program.put("file.new", b"left"), left)
        same(f"beside {about}: a script", program.script(path, SECOND, umask=0o022).status, 0)
        same(f"beside {about}: its rights", f"{stat.S_IMODE(os.stat(path).st_mode):o}", "600")
        os.remove(path)

    def talk(number, end, lines):
        same("rights of the new file", f"{stat.S_IMODE(os.stat(path + '.new').st_mode):o}", "600")

    same("a server", serve(program, path, talk), ENDED)
    same("its rights", f"{stat.S_IMODE(os.stat(path).st_mode):o}", "600")
    return "3 files"


def must_exist(program):
    """A file that must be there and is not is refused, and nothing is made. One that is there is taken."""
    path = program.at("none")
    why = f"{path}: No such file or directory"
    same("a script", program.script(path, SECOND, options=["--must-exist"]), refusal("ReadFault", why))
    words = ("serve", "--workers", "1", "--sessions", "1", "--image", path, "--must-exist", "--socket", program.at("socket"))
    same("a server", program.run(*words), refusal("ReadFault", why))
    alone(program)
    path, one, two = texts(program)
    same("a script on a file", program.script(path, SECOND, options=["--must-exist"]).status, 0)
    same("what is saved", read(path), two)
    return "3 runs"


def no_room(program):
    """Where the disk is full it is said so, and the file stays. It needs a small disk."""
    with small_disk(program, DISK) as small:
        if small is None:
            return NO_DISK
        path, one, _ = texts(program)
        file = shutil.move(path, small)
        program.put("small/fill", b"\0" * FILL)
        same("a script", program.script(file, SECOND).err, named("WriteFault", f"{file}: No space left on device"))
        same("the file", read(file), one)
        same("files in the folder", sorted(os.listdir(small)), ["file", "fill"])
    return "1 disk"


TRIALS = (changed_beside, kept_names, script_is_watched, other_names, made_for_the_owner, must_exist, no_room)
