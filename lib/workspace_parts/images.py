"""Where what is typed goes: to a script that the workspace starts, or to an image that is served to many."""

import contextlib
import os
import tempfile

from . import holding, image_file, served_advice
from .connection import Connection
from .reconnecting import Reconnecting
from .served_turns import ServedTurns
from .socket_connection import SocketConnection
from .turns import Turns
from .wrong import Ended, Wrong


# What is said of image files.
HELP = """\
With --image FILE the workspace begins with the image of that file, and keeps it there when it ends; c := actor 0 names an actor
of it. Behind an end, or :restart, statistics begin at 0, turns are numbered anew, and of the outcomes each actor's last one is
kept, as that of turn 0. What was named is not in the file.
""".splitlines()


class OwnImage:
    """A script of the workspace's own: nobody else edits it. `advice`, `in_general` and `commands` have sentences in place of those
    for a script, `not_there` says why there is no such command, and `help` has lines that `:help` says besides. `kept` is the name of
    the file in which the image is kept, if one was given, and `path` is that of the file with which the program works. `loaded` is
    what was there when the program began. `hold` is that on the file which is kept. `is_beside` says whether the image was saved beside
    the file in the end."""

    is_served = False
    advice, in_general, commands, not_there, help = {}, {}, {}, {}, HELP

    def __init__(self, program, options, kept=None):
        self.program, self.options, self.kept = program, options, kept
        self.folder = None if kept else tempfile.TemporaryDirectory()
        self.path = os.path.realpath(kept or os.path.join(self.folder.name, "image"))
        self.loaded = None
        self.hold = holding.Hold(kept) if kept else None
        self.is_begun = self.is_beside = False

    def connect(self, session):
        try:
            self.load()
            return Connection(self.program, ["--image", self.path, *self.options], bool(self.kept))
        except BaseException as stopped:
            self.give_back()
            if isinstance(stopped, Wrong):
                raise Ended(stopped.sentence) from None
            raise

    def load(self):
        """Only at the begin it matters that another program has the file: later there is something to lose."""
        name = self.kept or self.path
        if self.hold and not self.hold.take() and not self.is_begun:
            raise Wrong(holding.TAKEN.format(name))
        self.is_begun = True
        image_file.check_room(name)
        self.loaded = image_file.read(name)
        if self.hold:
            self.hold.see()

    def give_back(self):
        if self.hold:
            self.hold.give_back()

    def be_connected(self, session):
        """A program that has ended is not started again."""

    def about_to_save(self):
        """Lets the program save the file."""
        if self.hold:
            self.hold.about_to_save()

    @contextlib.contextmanager
    def saving(self):
        """Lets the program save the file. It holds that itself then; if not, it is held here again."""
        self.about_to_save()
        try:
            yield
            if self.hold:
                self.hold.see()
        finally:
            if self.hold:
                self.hold.take()

    def is_changed(self):
        """Whether the file has something else than the program has loaded or saved."""
        return self.hold and self.hold.is_changed()

    def is_kept_beside(self):
        """Whether the program has left the file at its end, and saved its image beside it."""
        self.is_beside = bool(self.hold and self.hold.saved_beside())
        return self.is_beside

    def turns(self, connection, breaks):
        return Turns(connection, breaks)

    def forget(self):
        """A file that nobody named goes with its image."""
        if not self.kept and os.path.exists(self.path):
            os.remove(self.path)


class ServedImage:
    """An image that a server keeps, which others edit as well. Messages are numbered as those of a sender."""

    is_served = True
    is_beside = False
    kept = loaded = None
    advice, in_general = served_advice.REFUSALS, served_advice.IN_GENERAL
    commands, not_there, help = served_advice.COMMANDS, served_advice.NOT_THERE, served_advice.HELP

    def __init__(self, path, sender):
        self.path, self.sender = path, sender

    def connect(self, session):
        return SocketConnection(self.path)

    def be_connected(self, session):
        """A connection that broke is not made again."""

    def about_to_save(self):
        """The server saves it."""

    def saving(self):
        return contextlib.nullcontext()

    def turns(self, connection, breaks):
        return ServedTurns(connection, breaks, self.sender)


class WatchedImage(ServedImage):
    """A served image with a person at a terminal, who is told when the connection breaks and when it is there again."""

    def connect(self, session):
        return Reconnecting(self.path, session.say, session.begin_again)

    def be_connected(self, session):
        """Asks something, so that where the connection broke it is made again before anything is sent that rests on what was shown."""
        session.turns.ask({"cmd": "status"})
