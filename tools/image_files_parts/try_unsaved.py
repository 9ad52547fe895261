"""Trials on saves by a command that are refused: the file stays, nothing is left beside it but what is held for the next, and the script
or the server goes on."""

import contextlib
import json
import os
import shutil

from inspect_trials.try_common import read
from trial_parts.times import later

from .disks import NO_DISK, small_disk
from .program import Ended, named, same
from .saving import asks, end_of, going_on, in_a_session, is_not_saved, said, saves
from .try_folders import by_nobody
from .try_held import ENDED, FIRST, HELD, NO_FILE, SECOND, alone, locked, text_of, texts
from .try_watched import CHANGED, backup, moved, of_new_file, written_again

THIRD = FIRST.replace(b"First", b"Third")
# The bytes of a page, and how many pages the small disk has.
PAGE, PAGES = 4096, 16
# A method for whose text a file takes two pages.
LONG = b'{"class":"First","cmd":"method","source":"a ^1 \\"%s\\""}' % (b"x" * 4000)


def changed_meanwhile(program):
    """A file that was changed since it was loaded, or saved last, stays. In the end the image is saved beside it."""
    for change in (backup, moved, of_new_file, written_again):
        for is_saved in (False, True):
            about = f"{change.__name__}, {'behind a save' if is_saved else 'before'}"
            path, one, two = texts(program)
            shutil.copyfile(path, path + ".other")

            def talk(asked):
                if is_saved:
                    saves(about, asked, path, one)
                change(path)
                names, data = {*os.listdir(program.folder), "file.new"}, read(path)
                for command in (json.loads(SECOND), {"cmd": "status"}):
                    is_not_saved(about, asked, path, data)
                    same(f"{about}: beside it", read(path + ".new"), b"")
                    alone(program, *names)
                    same(f"{about}: what comes behind", list(asked(command)), ["ok"])

            why = CHANGED.partition(":")[0]
            err = said(*[f"{path} {why}"] * 2) + named("WriteFault", f"{path} {CHANGED} {path}.kept1")
            same(f"{about}: the server", in_a_session(program, path, talk), ENDED._replace(status=1, err=err))
            same(f"{about}: what is kept beside it", read(path + ".kept1"), two)
            for name in ("file.kept1", "file.other"):
                with contextlib.suppress(FileNotFoundError):
                    os.remove(program.at(name))
            alone(program, "file")
    return "8 servers"


def saved_by_another(program):
    """What another script saved meanwhile stays, and the first one goes on."""
    path, one, two = texts(program)
    with going_on(program, path) as (script, asked):
        saves("the first script", asks(asked), path, one)
        os.remove(path + ".new")
        later(path)
        same("the second script", program.script(path, SECOND).status, 0)
        is_not_saved("the first script", asks(asked), path, two)
        same("an edit", json.loads(asked(THIRD)), {"ok": {"version": 2}})
        err = said(f"{path} {CHANGED.partition(':')[0]}") + named("WriteFault", f"{path} {CHANGED} {path}.kept1")
        same("the end", end_of(script), Ended(1, b"", err))
    same("the file, and what is beside it", (read(path), read(path + ".kept1")), (two, text_of(program, FIRST, THIRD)))
    return "2 scripts"


def in_its_way(program):
    """Where the new file was taken away, another one is made. What stands in its place is not touched, and the next save is made when it is
    gone."""
    path, one, two = texts(program)
    beside = path + ".new"

    def talk(asked):
        os.remove(beside)
        saves("taken away", asked, path, one)
        os.remove(beside)
        os.mkdir(beside)
        is_not_saved("a folder", asked, path, one)
        same("an edit", asked(json.loads(SECOND)), {"ok": {"version": 2}})
        is_not_saved("a folder", asked, path, one)
        same("the folder", os.listdir(beside), [])
        os.rmdir(beside)
        saves("no folder any more", asked, path, two)
        os.remove(beside)
        with locked(beside):
            is_not_saved("another's", asked, path, two)
        saves("nobody's any more", asked, path, two)
        alone(program, "file", "file.new", "socket")

    no_file, held = f"{beside} {NO_FILE}", f"{beside} {HELD}"
    same("the server", in_a_session(program, path, talk), ENDED._replace(err=said(no_file, no_file, held)))
    alone(program, "file")
    return "6 saves"


def fill_up(path):
    """Writes what there is room for, but for a page."""
    with open(path, "wb", buffering=0) as file:
        with contextlib.suppress(OSError):
            while True:
                file.write(b"\0" * PAGE)
        file.truncate(os.path.getsize(path) - PAGE)


def save_on_a_full_disk(program):
    """Where the disk has no room for all of a text, a script and a server go on, and save once there is room."""
    with small_disk(program, PAGES * PAGE) as small:
        if small is None:
            return NO_DISK
        one, two, three = (text_of(program, FIRST, LONG, *more) for more in ((), (SECOND,), (SECOND, THIRD)))
        path, fill = os.path.join(small, "file"), os.path.join(small, "fill")
        with open(path, "wb") as file:
            file.write(one)

        def talk(asked):
            saves("a small disk", asked, path, one)
            for line, before, behind in ((SECOND, one, two), (THIRD, two, three)):
                fill_up(fill)
                same("an edit", list(asked(json.loads(line))), ["ok"])
                for _ in range(2):
                    is_not_saved("a full disk", asked, path, before)
                    same("files of the disk", sorted(os.listdir(small)), ["file", "file.new", "fill"])
                    same("beside the file", read(path + ".new"), b"")
                os.remove(fill)
                saves("a disk with room", asked, path, behind)

        full = said(*[f"{path}: No space left on device"] * 4)
        same("the server", in_a_session(program, path, talk), ENDED._replace(err=full))
        same("files of the disk", os.listdir(small), ["file"])
        with open(path, "wb") as file:
            file.write(one)
        with going_on(program, path) as (script, asked):
            talk(asks(asked))
            same("the script", end_of(script), Ended(0, b"", full))
        same("files of the disk", os.listdir(small), ["file"])
    return "1 disk, 8 saves refused"


def room_for_two(program):
    """A disk that has room for the file and a new one is saved on time and again: what was replaced takes no room any more."""
    with small_disk(program, PAGES * PAGE) as small:
        if small is None:
            return NO_DISK
        path, one, two = texts(program)
        path = shutil.move(path, small)
        with open(os.path.join(small, "fill"), "wb") as file:
            file.write(b"\0" * (PAGES - 2) * PAGE)

        def talk(asked):
            for number in range(3):
                saves(f"save {number + 1}", asked, path, one)
            same("an edit", asked(json.loads(SECOND)), {"ok": {"version": 2}})

        same("the server", in_a_session(program, path, talk), ENDED)
        same("the file", read(path), two)
    return "1 disk, 3 saves"


def folder_is_closed(program):
    """A folder that may not be written any more: the server goes on, and saves once it may."""
    tried = by_nobody(program)
    if tried is None:
        return "no folder, since no other user can run the program"
    by_other, somebody = tried
    for name in ("folder", "room"):
        os.mkdir(program.at(name))
        os.chmod(program.at(name), 0o777)
    _, one, two = texts(program)
    path = shutil.move(program.at("file"), program.at("folder", "file"))
    if somebody:
        os.chown(path, somebody["user"], somebody["group"])

    def talk(asked):
        saves("an open folder", asked, path, one)
        os.chmod(program.at("folder"), 0o555)
        same("an edit", asked(json.loads(SECOND)), {"ok": {"version": 2}})
        for _ in range(2):
            is_not_saved("a closed folder", asked, path, one)
            same("files in the folder", sorted(os.listdir(program.at("folder"))), ["file", "file.new"])
        os.chmod(program.at("folder"), 0o777)
        saves("an open folder again", asked, path, two)
        same("beside it", read(path + ".new"), b"")

    ended = in_a_session(by_other, path, talk, name="room/socket", **somebody)
    same("the server", ended, ENDED._replace(err=said(*[f"{path} can NOT be replaced"] * 2)))
    same("files in the folder", os.listdir(program.at("folder")), ["file"])
    return "1 folder, 2 saves refused"


TRIALS = (changed_meanwhile, saved_by_another, in_its_way, save_on_a_full_disk, room_for_two, folder_is_closed)
