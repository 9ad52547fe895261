"""Trials on what becomes of a file: after sessions that are refused, as a link, with its rights."""

import os
import stat

from inspect_trials.try_common import good_files, read

from .program import Ended, refusal, same

NOBODY = 65534
DEFINE = b'{"cmd":"define","name":"Further","slots":[],"super":"Object"}'
ANSWERED = b'{"ok":{"version":3}}\n'
WELL = Ended(0, ANSWERED, b"")
UNREAD = Ended(1, b'{"error":"ReadFault"}\n', b"")
# What ends a session, and the name of its refusal.
ENDINGS = ((b" " * 8193, b"TooLong"), (b"\xff", b"BadCommand"))


def before():
    """The bytes of a good file."""
    return read(good_files()["message-waits"])


def after():
    """What a session that defines a class leaves of it."""
    define = b',{"define":{"name":"Further","slots":[],"super":"Object"}}'
    return before().replace(b'],"format"', define + b'],"format"')


def leads_to(path):
    """Where a link leads, or None if it is none."""
    return os.readlink(path) if os.path.islink(path) else None


def alone(program, *names):
    """Nothing but these stands in the folder."""
    same("files in the folder", sorted(os.listdir(program.folder)), sorted(names))


def refused_sessions(program):
    """A session that is refused leaves the file as it was, or leaves none."""
    path = program.put("kept", before())
    for line, name in ENDINGS:
        wanted = Ended(1, ANSWERED + b'{"error":"%s"}\n' % name, b"actorimage: %s\n" % name)
        same(f"{name}", program.script(path, DEFINE, line, DEFINE), wanted)
        fresh = program.script(program.at("none"), DEFINE, line)
        same(f"{name}, no file", (fresh.status, fresh.err), (wanted.status, wanted.err))
    folder = os.open(program.folder, os.O_RDONLY)
    same("a folder is read", program.script(path, stdin=folder), refusal("ReadFault"))
    os.close(folder)
    count = 2 * len(ENDINGS) + 1
    if os.path.exists("/dev/full"):
        with open("/dev/full", "wb") as full:
            ended = program.script(path, DEFINE, stdout=full)
        same("nothing can be written", (ended.status, ended.err), (1, b"actorimage: WriteFault\n"))
        count += 1
    same("what a refused session leaves", read(path), before())
    alone(program, "kept")
    return f"{count} sessions"


def not_there(program):
    """No file and a folder cannot be checked. A session begins with no file, and not with a folder or a pipe, at which nobody writes."""
    same("check of no file", program.check(program.at("none")), UNREAD)
    same("check of a folder", program.check(program.folder), UNREAD)
    same("check of a file as a folder", program.check(os.path.join(program.put("file", before()), "none")), UNREAD)
    os.mkdir(program.at("folder"))
    wanted = refusal("ReadFault", f"{program.at('folder')} is a folder")
    same("a folder as the file", program.script(program.at("folder"), DEFINE), wanted)
    same("the folder", os.listdir(program.at("folder")), [])
    os.mkfifo(program.at("pipe"))
    wanted = refusal("ReadFault", f"{program.at('pipe')} is no file")
    same("a pipe as the file", program.script(program.at("pipe"), DEFINE), wanted)
    alone(program, "file", "folder", "pipe")
    return "5 paths"


def links(program):
    """A link to the file stays one, and the file that it leads to is written: in the folder or in another one."""
    os.mkdir(program.at("folder"))
    os.symlink("far", program.at("folder", "near"))
    ways = {"beside": ("file", "file"), "away": ("folder/far", "folder/far"), "over": ("folder/near", "folder/far")}
    for name, (way, where) in ways.items():
        program.put(where, before())
        os.symlink(way, program.at(name))
        same(f"a link {name}", program.script(program.at(name), DEFINE), WELL)
        same(f"a link {name} leads to", leads_to(program.at(name)), way)
        same(f"a link {name}: what is saved", read(program.at(where)), after())
    same("a link in the folder leads to", leads_to(program.at("folder", "near")), "far")
    same("files in the folder of the file", sorted(os.listdir(program.at("folder"))), ["far", "near"])
    os.symlink("nowhere", program.at("lost"))
    begun = Ended(0, b'{"ok":{"version":1}}\n', b"")
    same("a link that leads nowhere", program.script(program.at("lost"), DEFINE), begun)
    same("a link that leads nowhere is one", leads_to(program.at("lost")), None)
    alone(program, "folder", "file", "lost", *ways)
    return f"{len(ways) + 1} links"


def rights(program):
    """A file has the rights that it had."""
    all_rights = (0o600, 0o640, 0o644, 0o664, 0o666, 0o755)
    for mode in all_rights:
        path = program.put("file", before())
        os.chmod(path, mode)
        same(f"rights {mode:o}: session", program.script(path, DEFINE, umask=0o077), WELL)
        same(f"rights {mode:o}", f"{stat.S_IMODE(os.stat(path).st_mode):o}", f"{mode:o}")
        same(f"rights {mode:o}: what is saved", read(path), after())
        os.remove(path)
    alone(program)
    return f"{len(all_rights)} files"


def owners(program):
    """A file has the owner and the group that it had, if the program may say so."""
    if os.geteuid() != 0:
        return "no files, since only root gives them away"
    all_owners = ((NOBODY, 0), (0, NOBODY), (NOBODY, NOBODY))
    for owner in all_owners:
        path = program.put("file", before())
        os.chown(path, *owner)
        os.chmod(path, 0o640)
        same(f"owner {owner}: session", program.script(path, DEFINE), WELL)
        found = os.stat(path)
        same(f"owner {owner}", (found.st_uid, found.st_gid, stat.S_IMODE(found.st_mode)), (*owner, 0o640))
        os.remove(path)
    alone(program)
    return f"{len(all_owners)} files"


def settings_of_a_session(program):
    """Mailboxes keep their room, and new ones have that of the session; the quantum is the session's."""
    path = program.put("file", before())
    lines = [b'{"class":"M","cmd":"actor"}']
    lines += [b'{"actor":%d,"args":[],"cmd":"post","selector":"a","sender":1,"seq":%d}' % it for it in ((1, 2), (1, 3), (0, 4))]
    lines += [b'{"cmd":"run"}']
    wanted = [b'{"ok":{"actor":1}}', b'{"ok":{"turn":1}}', b'{"error":"Full"}', b'{"ok":{"turn":2}}']
    wanted += [b'{"ok":{"quanta":9,"steps":21}}']
    options = ("--quantum", "3", "--capacity", "1")
    same("mailboxes of a file and of a session", program.replies("settings", path, lines, options), wanted)
    lines = [b'{"actor":1,"args":[],"cmd":"post","selector":"a","sender":1,"seq":%d}' % seq for seq in (5, 6)]
    same("the mailbox of the session before", program.replies("settings", path, lines), [b'{"ok":{"turn":1}}', b'{"error":"Full"}'])
    alone(program, "file")
    return "2 sessions"


TRIALS = (refused_sessions, not_there, links, rights, owners, settings_of_a_session)
