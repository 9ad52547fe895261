"""The hold on an image's file: while a workspace goes on, no other program saves to the file. Where the file was changed otherwise, the
workspace's own program leaves it, and saves its image beside it at its end.

The hold is the lock on the new file beside it, which a server has too. The program wants it when it saves, and has it from then on, so it
is given back before."""

import contextlib
import errno
import fcntl
import glob
import hashlib
import os

from inspect_parts.held import BESIDE, HOW, hold

TAKEN = (
    "another program has {}: a workspace, or a server, whose image is typed into with  bin/workspace --socket PATH; wait until it has "
    "ended, or work on a copy of the file"
)
# More files than a workspace has open.
HIGH = 100


class Hold:
    """`file` is the new file while it is held, `loaded` is a sum of what the image's file had when it was loaded or saved, and `before`
    are the images that were beside it before the program saves."""

    def __init__(self, name):
        self.place = os.path.realpath(name)
        self.file = self.loaded = None
        self.before = set()

    def take(self):
        """Whether no other program has the file. Where it cannot be held for another reason, it cannot be saved either, which is told
        then."""
        if self.file:
            return True
        try:
            self.file = opened(self.place + BESIDE)
            hold(self.file, self.place + BESIDE)
        except OSError as error:
            self.let_go()
            return error.errno != errno.EBUSY
        return True

    def let_go(self):
        if self.file:
            self.file.close()
            self.file = None

    def give_back(self):
        """Removes the new file, if it is still the one that is held."""
        if not self.file:
            return
        with contextlib.suppress(OSError):
            if os.path.samestat(os.fstat(self.file.fileno()), os.lstat(self.place + BESIDE)):
                os.remove(self.place + BESIDE)
        self.let_go()

    def see(self):
        """Takes note of what the file has."""
        self.loaded = sum_of(self.read())

    def is_changed(self):
        """Whether the file has something else than was loaded or saved."""
        return sum_of(self.read()) != self.loaded

    def about_to_save(self):
        """Lets the program save."""
        self.before = self.beside()
        self.give_back()

    def saved_beside(self):
        """Where the program has saved its image beside the file; None if it has not."""
        return next(iter(self.beside() - self.before), None)

    def beside(self):
        """The images beside the file that did not take its place."""
        return set(glob.glob(glob.escape(self.place) + ".kept*"))

    def read(self):
        """What the file has; None if nothing is there."""
        with contextlib.suppress(OSError), open(self.place, "rb") as file:
            return file.read()
        return None


def opened(name):
    """An open file with a high number. If the workspace is killed, Linux closes its files from the highest number down: so the file is
    let go of before the program's input ends, and the program can save."""
    low = os.open(name, HOW, 0o666)
    try:
        return open(fcntl.fcntl(low, fcntl.F_DUPFD_CLOEXEC, HIGH), "wb")
    finally:
        os.close(low)


def sum_of(data):
    return None if data is None else hashlib.sha256(data).digest()
