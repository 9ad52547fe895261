"""Trials on saves by a command: what the file has then, what lies beside it, and that the script or the server goes on."""

import json
import os

from inspect_trials.try_common import EXAMPLES, good_files, read
from inspect_trials.written import file_text

from .loaded import Loaded
from .program import Ended, named, same
from .resting import settle
from .saving import asks, end_of, going_on, in_a_session, saves
from .try_commands import COMMANDS
from .try_held import ENDED, FIRST, HELD, SECOND, alone, text_of, texts
from .try_paths import ENDINGS, NOBODY
from .try_served import not_begun

# Scripts with turns in the middle, messages that wait, edits, checkpoints, and mailboxes that are closed.
SCRIPTS = ("actors", "checkpoint", "closing", "edit", "mailboxes", "rally")
# Behind so many commands a server is ended too.
ENDS = range(0, len(COMMANDS), 6)


def in_the_middle(program):
    """Behind each line of a script a save leaves what a script without the later lines leaves at its end. The replies to the others, and
    what is left in the end, are those without saves."""
    count = 0
    for name in SCRIPTS:
        lines, path, whole = read(os.path.join(EXAMPLES, f"{name}.jsonl")).splitlines(), program.at(name), program.at("whole")
        wanted = program.replies(name, whole, lines)
        with going_on(program, path) as (script, asked):
            saves(f"{name}, before its first line", asks(asked), path, text_of(program))
            for place, line in enumerate(lines):
                about = f"{name}, line {place + 1}"
                same(about, asked(line), wanted[place])
                saves(about, asks(asked), path, text_of(program, *lines[: place + 1]))
                count += 1
            same(f"{name}: its end", end_of(script), Ended(0, b"", b""))
        same(f"{name}: what is left", read(path), read(whole))
        for it in (path, whole):
            os.remove(it)
        alone(program)
    return f"{len(SCRIPTS)} scripts, {count} lines"


def behind_one_another(program):
    """Two saves with nothing between leave the same text, and a new file beside it, which is empty and held: no server begins on the file
    by any name. It is gone at the end, which saves what came since, and where the script is refused."""
    for line, name in ((None, None), *ENDINGS):
        path, one, two = texts(program)
        with going_on(program, path) as (script, asked):
            for number in range(2):
                saves(f"save {number + 1}", asks(asked), path, one)
                same(f"beside it behind save {number + 1}", read(path + ".new"), b"")
                not_begun(program, "a server", path, "WriteFault", f"{path}.new {HELD}")
            os.remove(path + ".new")
            not_begun(program, "a server", path, "WriteFault", f"{path} {HELD}")
            same("an edit", json.loads(asked(SECOND)), {"ok": {"version": 2}})
            saves("a third save", asks(asked), path, two)
            same("another edit", json.loads(asked(SECOND.replace(b"Second", b"Third"))), {"ok": {"version": 3}})
            if line is None:
                same("the end", end_of(script), Ended(0, b"", b""))
            else:
                same("the last line", asked(line), b'{"error":"%s"}' % name)
                same("the end", end_of(script), Ended(1, b"", named(name.decode())))
        third = text_of(program, FIRST, SECOND, SECOND.replace(b"Second", b"Third"))
        same("the file", read(path), two if line else third)
        alone(program, "file")
    return f"{len(ENDINGS) + 1} scripts"


def behind_each_command(program):
    """A server saves behind each command of a session: the file is that of the second implementation, and that of a server that is ended
    there."""
    data = read(good_files()["message-waits"])
    image, wanted = Loaded(json.loads(data)), []
    for command in ({"cmd": "run"}, *COMMANDS):
        image.reply(command)
        image.reply({"cmd": "run"})
        wanted.append(file_text(image.file()).encode())

    def talk(asked):
        settle(asked)
        for command, text in zip((None, *COMMANDS), wanted, strict=True):
            if command:
                asked(command)
            settle(asked)
            saves(f"behind {command}", asked, path, text)

    path = program.put("file", data)
    ended = in_a_session(program, path, talk)
    same("the server", (ended.status, ended.err), (0, b""))
    same("what it leaves", read(path), wanted[-1])
    for place in ENDS:
        path = program.put("file", data)

        def short(asked):
            settle(asked)
            for command in COMMANDS[:place]:
                asked(command)
                settle(asked)

        ended = in_a_session(program, path, short)
        same(f"a server that ends behind command {place}", (ended.status, ended.err), (0, b""))
        same(f"a server that ends behind command {place}: what it leaves", read(path), wanted[place])
    alone(program, "file")
    return f"{len(wanted)} saves, {len(ENDS) + 1} servers"


def where_none_was(program):
    """A file that is not there is made by the first save, for its owner alone; and so is one that was removed."""
    path = program.at("file")

    def talk(asked):
        saves("no file", asked, path, text_of(program))
        same("its rights", f"{os.stat(path).st_mode & 0o777:o}", "600")
        os.remove(path)
        same("a class", asked(json.loads(FIRST)), {"ok": {"version": 1}})
        saves("a file that was removed", asked, path, text_of(program, FIRST))
        alone(program, "file", "file.new", "socket")

    same("the server", in_a_session(program, path, talk), ENDED)
    alone(program, "file")
    return "1 server"


def rights_are_kept(program):
    """The file keeps the rights that it has got meanwhile, and its owner where root says so. What is beside it has no more."""
    owner = (NOBODY, NOBODY) if os.geteuid() == 0 else (os.geteuid(), os.getegid())
    modes = (0o640, 0o666, 0o600)
    path, one, two = texts(program)

    def talk(asked):
        for mode in modes:
            os.chown(path, *owner)
            os.chmod(path, mode)
            for number in range(2):
                saves(f"rights {mode:o}", asked, path, one)
                found, beside = os.stat(path), os.stat(path + ".new")
                same(f"rights {mode:o}: of the file", (f"{found.st_mode & 0o777:o}", found.st_uid, found.st_gid), (f"{mode:o}", *owner))
                same(f"rights {mode:o}: of what is beside it", beside.st_mode & 0o777 & ~mode, 0)

    same("the server", in_a_session(program, path, talk, umask=0o022), ENDED)
    alone(program, "file")
    return f"{len(modes)} rights"


def by_a_link(program):
    """A link stays one, and the file to which it leads is saved."""
    path, one, two = texts(program)
    link = program.at("link")
    os.symlink("file", link)

    def talk(asked):
        for text in (one, two):
            for number in range(2):
                saves(f"save {number + 1}", asked, path, text)
                same(f"save {number + 1}: the link leads to", os.readlink(link), "file")
            same("an edit", list(asked(json.loads(SECOND))), ["ok" if text == one else "error"])
        alone(program, "file", "file.new", "link", "socket")

    same("the server", in_a_session(program, link, talk), ENDED)
    same("what is saved", (read(path), os.readlink(link)), (two, "file"))
    alone(program, "file", "link")
    return "1 link"


def by_a_link_that_was_moved(program):
    """A server saves in the file to which the link led when it began, time and again."""
    path, one, two = texts(program)
    link = program.at("link")
    os.symlink("file", link)

    def talk(asked):
        saves("the first save", asked, path, one)
        os.remove(link)
        os.symlink("other", link)
        same("an edit", asked(json.loads(SECOND)), {"ok": {"version": 2}})
        for number in range(2):
            saves(f"save {number + 1} behind that", asked, path, two)
        alone(program, "file", "file.new", "link", "socket")

    same("the server", in_a_session(program, link, talk), ENDED)
    same("what is saved", (read(path), os.readlink(link)), (two, "other"))
    alone(program, "file", "link")
    return "1 link"


TRIALS = (in_the_middle, behind_one_another, behind_each_command, where_none_was, rights_are_kept, by_a_link, by_a_link_that_was_moved)
