"""The sessions of the page with the image: one for looks, one for changes, and one for what is typed, for all windows together."""

import threading
import time

import actorimage

# Seconds after which a session is ended and another one begun, since a server that is to end waits for all; and those that a reply
# may take.
LONGEST_SESSION, PATIENCE = 60, 30
LOOKS = ("classes", "methods", "source", "versions", "implementors", "senders", "edits", "actors", "inspect", "status", "outcome", "wait",
    "stats", "fault", "faults")
EDITS = "define", "method", "replace", "remove", "reparent"
# What is said where a session broke, and what the page does then.
WENT_AWAY, SILENT = "the server went away", f"the server has not answered for {PATIENCE} seconds"
NO_SERVER = "no server listens", "what replies is no server"
GOES_ON, PERHAPS = "the page goes on by itself once a server is there", "whether this was done is not known"
ONLY_LOOKS = "this page was started with --look, and changes nothing"
OF_FILE = "this is an image file, read alone: nothing of it runs, and nothing is changed"


class Lost(Exception):
    """There is no image now. `is_full` says that a server is there which takes no more sessions, and `is_broken` that the session was there
    when something was asked."""

    def __init__(self, sentence, is_full=False, is_broken=False):
        super().__init__(sentence)
        self.sentence, self.is_full, self.is_broken = sentence, is_full, is_broken

    def said(self, is_change):
        """The sentence, with what the page does now; of a change also that it may have been done."""
        parts = [self.sentence, *[PERHAPS] * (is_change and self.is_broken), *[GOES_ON] * (not self.is_full)]
        return "; ".join(parts)


def why(error):
    """What is said where no session began, in the words of the client; and where one broke, of which that says what it read."""
    if str(error).startswith(NO_SERVER):
        return str(error)
    return SILENT if isinstance(error.__context__, TimeoutError) else WENT_AWAY


class OnlyLooks(Exception):
    """A change was asked for, and this page makes none."""

    def __init__(self, sentence=ONLY_LOOKS):
        super().__init__(sentence)


class Line:
    """One session, which is begun when something is asked. Threads may share it. `begun` counts the sessions that were not begun just
    since the one before was old: behind such a one the image may be another. `ours` has the versions of the edits that were made here."""

    def __init__(self, path, looks_only=False, ours=None):
        self.path, self.looks_only, self.ours = path, looks_only, set() if ours is None else ours
        self.lock, self.image, self.since, self.begun = threading.RLock(), None, 0.0, 0

    def ask(self, command):
        """What the reply has for `ok`. A refusal is raised, and `Lost` where there is no image."""
        (told,) = self.ask_all([command])
        if isinstance(told, actorimage.Refused):
            raise told
        return told

    def ask_all(self, commands, window=8):
        """The replies to many commands; refusals are among them."""
        commands = list(commands)
        if self.looks_only and any(it["cmd"] not in LOOKS for it in commands):
            raise OnlyLooks
        with self.lock:
            self.be_there()
            try:
                told = list(self.image.ask_all(commands, window))
            except actorimage.Ended as ended:
                self.rest()
                raise Lost(why(ended), is_broken=True) from None
        self.ours.update(it["version"] for command, it in zip(commands, told) if command["cmd"] in EDITS and isinstance(it, dict))
        return told

    def be_there(self):
        """Begins a session where there is none, or where the present one is old."""
        is_old = self.image is not None and time.monotonic() - self.since > LONGEST_SESSION
        if self.image is not None and not is_old:
            return
        self.rest()
        try:
            self.image = actorimage.connect(self.path, timeout=PATIENCE)
        except actorimage.TooMany:
            raise Lost("the server has 64 sessions, as many as it may; this page goes on once one of them ends", True) from None
        except actorimage.ActorImageError as error:
            raise Lost(why(error) if isinstance(error, actorimage.Ended) else str(error)) from None
        self.since = time.monotonic()
        self.begun += not is_old

    def rest(self):
        """Ends the session; the next question begins another one."""
        with self.lock:
            image, self.image = self.image, None
            if image is not None:
                image.end()

    def tidy(self):
        """Ends a session that is old, if nobody asks anything just now."""
        if time.monotonic() - self.since > LONGEST_SESSION and self.lock.acquire(blocking=False):
            try:
                self.rest()
            finally:
                self.lock.release()


class Desk:
    """The three sessions. A window that waits for what was typed holds up no look."""

    def __init__(self, path, looks_only=False, line=None):
        """`line` is what there is in place of sessions: an image file."""
        self.path, self.looks_only = path, looks_only or line is not None
        ours = set()
        self.looks, self.changes, self.typed = (line or Line(path, it, ours) for it in (True, looks_only, looks_only))

    @property
    def lines(self):
        return self.looks, self.changes, self.typed

    def rest(self):
        for line in self.lines:
            line.rest()

    def tidy(self):
        for line in self.lines:
            line.tidy()
