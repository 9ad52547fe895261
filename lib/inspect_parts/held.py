"""The new file beside an image's file. Whoever writes the file holds that by a lock, as a server does from its start."""

import contextlib
import errno
import fcntl
import os

BESIDE = ".new"
JOURNAL = ".journal"
HOW = os.O_WRONLY | os.O_CREAT | os.O_NOFOLLOW | os.O_CLOEXEC


def refuse_journal(path):
    """`OSError` where the journal of an image is there: what it tells is not in the file, and goes on from the file as it is."""
    if os.path.lexists(path + JOURNAL):
        raise OSError(errno.EBUSY, "its journal is there: serve it with --journal, and end that server", path)


@contextlib.contextmanager
def new_file(path):
    """The empty new file beside the one at a path. It takes that one's place, and its rights, where nothing is raised. `OSError` if it
    cannot be held, or the file has a journal."""
    refuse_journal(path)
    name = path + BESIDE
    with open(os.open(name, HOW, 0o666), "wb") as file:
        hold(file, name)
        try:
            file.truncate()
            with contextlib.suppress(FileNotFoundError):
                os.fchmod(file.fileno(), os.stat(path).st_mode & 0o777)
            yield file
            file.flush()
            os.fsync(file.fileno())
            os.replace(name, path)
        except BaseException:
            with contextlib.suppress(FileNotFoundError):
                os.remove(name)
            raise


def hold(file, name):
    """Locks an open file, which is the one of this name."""
    try:
        fcntl.flock(file, fcntl.LOCK_EX | fcntl.LOCK_NB)
    except BlockingIOError:
        raise OSError(errno.EBUSY, "a server or another program has it") from None
    if not os.path.samestat(os.fstat(file.fileno()), os.lstat(name)):
        raise OSError(errno.EBUSY, "another program writes it")
