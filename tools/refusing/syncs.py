"""Saves of a script and of a server whose waits for the disk fail."""

import functools
import json
import os
import tempfile

from image_files_parts.program import Different, Ended, Program, named, same
from image_files_parts.saving import asks, end_of, going_on, in_a_session, is_not_saved, said, saves
from image_files_parts.try_held import ENDED, FIRST, SECOND, alone, text_of, texts
from inspect_trials.try_common import read

from .shim import made_in

# A library in which `fsync` and `fdatasync` fail while the file is there that a variable names: of all, of folders, or the second
# `fdatasync` alone.
SOURCE = r"""
#define _GNU_SOURCE
#include <dlfcn.h>
#include <errno.h>
#include <stdlib.h>
#include <sys/stat.h>
#include <unistd.h>
static int is_there(const char *name) {
  const char *path = getenv(name);
  return path && access(path, F_OK) == 0;
}
static int is_folder(int file) {
  struct stat it;
  return fstat(file, &it) == 0 && S_ISDIR(it.st_mode);
}
static int is_second(void) {
  static int waits;
  return is_there("REFUSE_SECOND") && ++waits == 2;
}
static int refuses(int file, int is_second) {
  if (!is_there("REFUSE_SYNC") && !(is_there("REFUSE_FOLDERS") && is_folder(file)) && !is_second) return 0;
  errno = EIO;
  return 1;
}
int fsync(int file) {
  static int (*real)(int);
  if (refuses(file, 0)) return -1;
  if (!real) real = (int (*)(int))dlsym(RTLD_NEXT, "fsync");
  return real(file);
}
int fdatasync(int file) {
  static int (*real)(int);
  if (refuses(file, is_second())) return -1;
  if (!real) real = (int (*)(int))dlsym(RTLD_NEXT, "fdatasync");
  return real(file);
}
"""
THIRD = FIRST.replace(b"First", b"Third")


def why(path):
    """What is said of the file."""
    return f"{path}: Input/output error"


class Disk:
    """A disk that refuses, and the environment of a program that writes to it."""

    def __init__(self, shim, folder, what="REFUSE_SYNC"):
        self.sign = os.path.join(folder, what)
        self.env = {**os.environ, "LD_PRELOAD": shim, what: self.sign}

    def refuse(self):
        with open(self.sign, "w", encoding="ascii"):
            pass

    def be_well(self):
        os.remove(self.sign)


def refused_to_the_end(disk, asked, path, text):
    """Saves and edits, of which none comes to the file."""
    disk.refuse()
    for line in (SECOND, THIRD):
        is_not_saved("a disk that refuses", asked, path, text)
        same("an edit", list(asked(json.loads(line))), ["ok"])
    is_not_saved("a disk that refuses", asked, path, text)


def refused_meanwhile(disk, asked, path, texts_of_file):
    """Saves that are refused, and the next ones that are not."""
    for text, line in zip(texts_of_file, (SECOND, THIRD)):
        disk.refuse()
        is_not_saved("a disk that refuses", asked, path, text)
        same("an edit", list(asked(json.loads(line))), ["ok"])
        is_not_saved("a disk that refuses", asked, path, text)
        disk.be_well()
        saves("a disk that is well again", asked, path)


def in_a_script(program, disk, talk, path, err, status):
    with going_on(program, path, env=disk.env) as (script, asked):
        talk(asks(asked))
        same("the end of a script", end_of(script), Ended(status, b"", err))


def in_a_server(program, disk, talk, path, err, status):
    ended = in_a_session(program, path, talk, env=disk.env)
    same("the end of a server", ended, ENDED._replace(status=status, err=err))


def try_with(program, disk, run):
    """Saves that are refused to the end, on a file and on none, and some that are refused meanwhile."""
    for is_there in (True, False):
        path, one, _ = texts(program)
        if not is_there:
            os.remove(path)
        err = said(*[why(path)] * 3) + named("WriteFault", why(path))
        run(program, disk, lambda asked: refused_to_the_end(disk, asked, path, one if is_there else None), path, err, 1)
        same("the file", read(path) if os.path.exists(path) else None, one if is_there else None)
        alone(program, *(["file"] if is_there else []))
        disk.be_well()
    path, one, two = texts(program)
    err = said(*[why(path)] * 4)
    run(program, disk, lambda asked: refused_meanwhile(disk, asked, path, (one, two)), path, err, 0)
    same("what is saved", read(path), text_of(program, FIRST, SECOND, THIRD))
    alone(program, "file")


def of_a_folder(program, disk):
    """A save is refused where the file is there, but not its name for sure. It has the image all the same, and the next save is made."""
    path, _, two = texts(program)
    with going_on(program, path, env=disk.env) as (script, lines):
        asked = asks(lines)
        same("an edit", list(asked(json.loads(SECOND))), ["ok"])
        disk.refuse()
        same("a save whose folder refuses", asked({"cmd": "save"}), {"error": "WriteFault"})
        same("the file", read(path), two)
        disk.be_well()
        saves("a folder that is well again", asked, path)
        ended = end_of(script)
    same("the end of a script", ended._replace(err=b""), Ended(0, b"", b""))
    same("what is said", b"the image is not saved: " in ended.err and b": Input/output error" in ended.err, True)


def check(program):
    """Whether all was well, which is printed."""
    trials = {run.__name__: functools.partial(try_with, run=run) for run in (in_a_script, in_a_server)} | {"of_a_folder": of_a_folder}
    with tempfile.TemporaryDirectory() as room:
        shim = made_in(room, SOURCE)
        for name, trial in trials.items():
            disk = Disk(shim, room, "REFUSE_FOLDERS" if trial is of_a_folder else "REFUSE_SYNC")
            with tempfile.TemporaryDirectory() as folder:
                try:
                    trial(Program(program, folder), disk)
                except Different as difference:
                    print(f"tools/refusing-disk: sync, {name}: {difference}")
                    return False
    print("tools/refusing-disk: sync: 10 saves of a script, 10 of a server and one of a folder were refused, and the files stayed")
    return True
