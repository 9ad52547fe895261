"""Trials on folders in which the file cannot be written, and on what may lie beside it."""

import os
import shutil

from inspect_trials.try_common import good_files, read

from .program import Ended, Program, named, same
from .try_paths import DEFINE, NOBODY, leads_to
from .try_served import not_begun

NO_FILE = "is there already, and is no file"


def by_nobody(program):
    """The program as one who may not write everywhere runs it, and how; None where that cannot be."""
    if os.geteuid() != 0:
        return program, {}
    os.chmod(program.folder, 0o755)
    copied = Program(shutil.copy(program.path, program.at("program")), program.folder)
    os.chmod(copied.path, 0o755)
    somebody = {"user": NOBODY, "group": NOBODY, "extra_groups": []}
    try:
        return (copied, somebody) if copied.run("--help", **somebody).status == 0 else None
    except OSError:
        return None


def cannot_write(program, about, path, why, **more):
    """A script is not saved, and a server does not begin. It is said why."""
    ended = program.script(path, DEFINE, **more)
    same(f"{about}: a script", (ended.status, ended.err), (1, named("WriteFault", why)))
    not_begun(program, about, path, "WriteFault", why, **more)


def unwritten(program):
    """No such folder, no name, and no file in place of the new one: the file and what is there stay, and no socket is made."""
    none = program.at("none", "file")
    cannot_write(program, "no such folder", none, f"{none}.new: No such file or directory")
    cannot_write(program, "no name", "", "", cwd=program.folder)
    same("files in the folder", os.listdir(program.folder), [])
    path, data = program.put("file", read(good_files()["message-waits"])), read(good_files()["message-waits"])
    beside = path + ".new"
    os.mkdir(beside)
    cannot_write(program, "a folder in place of the new file", path, f"{beside} {NO_FILE}")
    os.rmdir(beside)
    os.mkfifo(beside)
    cannot_write(program, "a pipe in place of the new file", path, f"{beside} {NO_FILE}")
    os.remove(beside)
    program.put("other", b"of another")
    for way in ("other", "nowhere"):
        os.symlink(way, beside)
        cannot_write(program, f"a link to {way} in place of the new file", path, f"{beside} {NO_FILE}")
        same(f"the link to {way}", leads_to(beside), way)
        os.remove(beside)
    same("the files", (read(path), read(program.at("other"))), (data, b"of another"))
    same("files in the folder", sorted(os.listdir(program.folder)), ["file", "other"])
    return "6 paths"


def forbidden(program):
    """A folder that may not be written, and a new file that may not be: the files stay."""
    tried = by_nobody(program)
    if tried is None:
        return "no folder, since no other user can run the program"
    by_other, somebody = tried
    os.mkdir(program.at("folder"))
    path, data = program.put("folder/file", read(good_files()["message-waits"])), read(good_files()["message-waits"])
    os.chmod(program.at("folder"), 0o555)
    denied = f"{path}.new: Permission denied"
    cannot_write(by_other, "a folder that may not be written", path, denied, **somebody)
    os.chmod(program.at("folder"), 0o777)
    os.chmod(program.put("folder/file.new", b"of another"), 0o444)
    cannot_write(by_other, "a new file that may not be written", path, denied, **somebody)
    same("the files", (read(path), read(path + ".new")), (data, b"of another"))
    same("files in the folder", sorted(os.listdir(program.at("folder"))), ["file", "file.new"])
    same("no socket", os.path.exists(program.at("socket")), False)
    return "2 folders"


def left_over(program):
    """A new file that an earlier run left is no part of what is saved, and is gone then."""
    path = program.put("file", read(good_files()["message-waits"]))
    program.put("file.new", b"{" * 100_000)
    same("a session beside a file that was left", program.script(path), Ended(0, b"", b""))
    same("what is saved", read(path), read(good_files()["message-waits"]))
    same("files in the folder", os.listdir(program.folder), ["file"])
    return "1 file"


TRIALS = (unwritten, forbidden, left_over)
