"""What is typed into the page's workspace: entries of bin/workspace, done one after the other, for all windows together."""

import collections
import os
import threading
import time

import actorimage
from workspace_parts import browsing
from workspace_parts.cutting import entries
from workspace_parts.images import ServedImage
from workspace_parts.served_turns import WAIT, ServedTurns
from workspace_parts.session import Session
from workspace_parts.wrong import BrokenOff, Ended, Lost as LostEntry, Stopped, Wrong

from .desk import Lost, OnlyLooks

SENDERS = 65_536
# Entries that are kept, and lines of one that are.
MOST_CARDS, MOST_LINES = 200, 2_000
AGAIN = "the next entry connects again"
# A client of an image reads and writes no files, and a page does no more than a client.
NO_FILES = "a page reads and writes no files; bin/workspace --socket does"
NOT_HERE = {
    "load": NO_FILES,
    "sources": NO_FILES,
    "log": NO_FILES,
    "quit": "close the window to leave; what goes on in the image goes on",
    "restart": "the image is served to others too; bin/stop ends its server",
}

# What `:help` says of this image besides, in place of what a workspace at a terminal says of a served one.
HELP = """\
On this page Enter does what is typed, Shift+Enter begins a line, and the keys up and down bring back what was typed. Tab completes
commands, names, classes, messages and methods of the whole image; in an empty field, and behind Escape, it goes on to what comes next.
In the source of a method Tab indents, Shift+Tab takes that back, and behind Escape both leave the source.
The image is served to many, and the server's workers run the actors: a message that is typed waits until its turn has ended, and
Break off, or Ctrl-C, stops the waiting; the turn goes on. What was typed behind it has not begun then: it is in the field again.
:post does not wait. Edits of others take effect here at the next send, and a method that somebody has changed since it was shown or
written here is not written over unseen. c := actor 0 names any actor.
""".splitlines()


class Breaks:
    """Whether the entry is to be broken off."""

    asked = False


class Connection:
    """The page's session as the workspace wants one: replies with their refusals."""

    file = None

    def __init__(self, line, begin_again):
        self.line, self.begin_again, self.before = line, begin_again, None

    def begin(self):
        """An entry begins. Behind a session that broke, the image may be another one, unless its epoch is as it was."""
        try:
            epoch = self.line.ask({"cmd": "status"})["epoch"]
        except Lost as lost:
            raise LostEntry(f"{lost.sentence}; {AGAIN}") from None
        before, self.before = self.before, (self.line.begun, epoch)
        if before and before[0] != self.line.begun and before[1] != epoch:
            self.begin_again()

    def ask(self, command):
        try:
            return {"ok": self.line.ask(command)}
        except actorimage.Refused as refused:
            return {"error": refused.name, **refused.fields}
        except OnlyLooks as only:
            raise Wrong(str(only)) from None
        except Lost as lost:
            raise LostEntry(f"{lost.sentence}; {AGAIN}") from None

    def end(self):
        """The desk ends the session."""

    close = kill = end


class PageTurns(ServedTurns):
    """A turn is waited for without a sign of life at a terminal: the page shows what its actor runs."""

    def wait(self, turn):
        while (end := self.ending(turn, WAIT)) is None:
            if self.breaks.asked:
                raise BrokenOff(f"{turn} is not waited for, and goes on in the server;  :{turn}  asks for it")
        return end


class PageImage(ServedImage):
    """A served image whose session is one of the page."""

    not_there, commands = {**ServedImage.not_there, **NOT_HERE}, {**ServedImage.commands, **NOT_HERE}
    help = HELP

    def __init__(self, line, sender, say):
        super().__init__(line.path, sender)
        self.line, self.say = line, say

    def connect(self, session):
        def begin_again():
            for line in session.begin_again():
                self.say(line)

        return Connection(self.line, begin_again)

    def turns(self, connection, breaks):
        # What was sent is kept for :log, which is not there.
        connection.lines = collections.deque(maxlen=0)
        return PageTurns(connection, breaks, self.sender)


class Typed:
    """The cards: what was typed, and what it gave so far. `version` grows with each change. `told` is called then."""

    def __init__(self, line, told):
        self.told, self.sender = told, os.getpid() % SENDERS
        self.cards, self.version, self.next, self.waiting, self.card = [], 0, 0, [], None
        self.lock = threading.Condition()
        self.breaks = Breaks()
        self.session = Session(PageImage(line, self.sender, self.say), self.breaks, self.say)
        # What the session asks when it begins is asked in one that ends: nobody types yet.
        line.rest()
        threading.Thread(target=self.work, daemon=True).start()

    def type(self, text):
        """Takes what was typed, which is cut into entries as a file is."""
        with self.lock:
            made = [self.begun(entry.text) for entry in entries(iter(text.split("\n"))) if entry.text.strip()]
            self.cards = [*self.cards, *made][-MOST_CARDS:]
            self.waiting += made
            self.lock.notify_all()
        self.changed(*made)

    def begun(self, text):
        """A card of an entry that waits for those before it."""
        self.next += 1
        return {"number": self.next, "typed": text, "lines": [], "state": "waits", "seconds": None, "why": []}

    def break_off(self):
        """Breaks off the entry that goes on. Those that wait behind it do not begin; gives what was typed of each."""
        with self.lock:
            self.breaks.asked = True
            dropped, self.waiting = self.waiting, []
            for card in dropped:
                card["state"] = "broken"
        self.changed(*dropped)
        return [it["typed"] for it in dropped]

    def changed(self, *cards):
        """These cards changed, and the one that goes on may have."""
        with self.lock:
            for card in (*cards, self.card):
                if card is not None:
                    card["version"] = self.version + 1
            self.version += 1
        self.told()

    def say(self, line):
        if self.card is not None and len(self.card["lines"]) < MOST_LINES:
            self.card["lines"].append(line)
        self.changed()

    def work(self):
        while True:
            with self.lock:
                while not self.waiting:
                    self.lock.wait()
                self.card, self.breaks.asked = self.waiting.pop(0), False
            self.card["state"] = "runs"
            self.changed()
            began = time.monotonic()
            self.card["state"] = self.done(self.card["typed"])
            self.card["epoch"] = self.epoch()
            self.card["seconds"] = round(time.monotonic() - began, 3)
            self.changed()
            self.card = None

    def done(self, text):
        """How an entry ended."""
        session = self.session
        session.answer, before = None, session.why
        try:
            kind = session.do(text)
        except LostEntry as lost:
            self.say(lost.sentence)
            return "lost"
        except (Stopped, Ended) as stopped:
            self.say(getattr(stopped, "sentence", str(stopped)))
            return "refused"
        except Exception as error:  # The next entry is done all the same.
            self.say(f"this went wrong in the page's server: {type(error).__name__}: {error}")
            return "refused"
        if kind == "refused" and session.why is not before and str(session.answer).startswith("fault "):
            self.explain()
            return "fault"
        if kind != "refused":
            return "done"
        return "refused" if session.log.connection.line.image else "lost"

    def epoch(self):
        """That of the image in which the entry was done: turns have their numbers in it alone."""
        return (self.session.log.connection.before or (0, None))[1]

    def explain(self):
        """What is said of a fault besides, for whoever asks where it was."""
        try:
            self.card["why"] = list(self.session.why()) if self.session.why else []
        except (Stopped, Ended):
            pass

    def names(self):
        """What was named, and an actor's number behind it."""
        found = list(self.session.known.names.items())
        return [{"name": name, "text": browsing.in_full(value, self.session), "actor": number_of(value)} for name, value in found]

    def waits_for(self):
        """The actor and the turn for which the entry that goes on waits; None if it waits for none."""
        turns = self.session.turns.waiting
        return {"actor": turns[-1].actor, "turn": turns[-1].number} if self.card is not None and turns else None


def number_of(value):
    return value.get("ref") if isinstance(value, dict) else None
