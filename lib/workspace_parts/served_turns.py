"""The turns of a served image: its workers run them, and the image is asked to tell when one has ended."""

import time

from .turns import HISTORY, Life, Turns
from .wrong import BrokenOff, Refused, Wrong

# Milliseconds of one wait: so long Ctrl-C and a sign of life may be late.
WAIT = 200
# What is said behind a new connection: of a session that has posted nothing, of an image that has nothing of the sender, and of one
# that has its messages up to a number, all of them or not.
AGAIN = "connected again; the image may be another one, in which names of actors and numbers of turns from before mean nothing"
NEW = "connected again; the image has no message of sender {}: it is another one, or was saved before, and names of actors may mean nothing"
HAS = "connected again; the image has the messages of sender {} up to number {}"
HAS_NOT = "connected again; the image was saved before: it has the messages of sender {} up to number {}, and not those up to {}"
# What is said besides where the epoch is another one. By a journal turns may have the numbers of before.
ANEW = "turns are numbered anew, unless a journal has brought them back: the server was started again, or somebody had a checkpoint"
NUMBERED_ANEW = "somebody has had a checkpoint meanwhile: turns are numbered anew, and how {} ended is not known here"
NOBODY_RUNS = "the server's workers run the actors, so there is nothing to run here; :turn 3 of c asks how a turn ended"


class ServedTurns(Turns):
    """`epoch` is that of the image's turns, as it was before the first message of those that are waited for was posted; None where it is
    to be asked for. `seen` is the last one that was told, and `room` how much the history held and might hold then."""

    epoch, seen, room = None, None, (0, HISTORY)

    def go_on(self, quanta=None, turn=None):
        raise Wrong(NOBODY_RUNS)

    def post(self, actor, selector, arguments):
        """The epoch may be another one by now, unless turns of the one that is known are waited for."""
        if not self.waiting:
            self.epoch = None
        self.learn_epoch()
        return super().post(actor, selector, arguments)

    def learn_epoch(self):
        if self.epoch is None:
            status = self.ask({"cmd": "status"})
            self.epoch, self.room = status["epoch"], (status["history"], status["history_most"])
            self.seen = self.epoch

    def may_have_run(self):
        return True

    def is_nearly_full(self):
        held, most = self.room
        return most - held <= most // 10

    def is_full(self):
        held, most = self.room
        return held >= most

    def outcome(self, turn, milliseconds=0):
        """How a turn ended, for which it is waited so long. Others' checkpoints number turns anew: then it is not known."""
        self.learn_epoch()
        command = {"cmd": "wait", "actor": turn.actor, "epoch": self.epoch, "ms": milliseconds, "turn": turn.number}
        try:
            return self.ask(command)
        except Refused as refused:
            if refused.reply["error"] == "Expired":
                self.see_epoch(turn)
            raise

    def see_epoch(self, turn):
        before, self.epoch = self.epoch, None
        self.learn_epoch()
        if self.epoch != before:
            self.waiting, self.ends, self.selectors = [], {}, {}
            raise BrokenOff(NUMBERED_ANEW.format(turn))

    def end_of(self, turn):
        """Waits until a turn has ended, and says how. Those that were posted before and have ended are seen as well."""
        end = self.wait(turn)
        self.waiting.remove(turn)
        for actor in {it.actor for it in self.waiting}:
            self.see_ends(actor)
        return end

    def wait(self, turn):
        life, begun = Life(), time.monotonic()
        try:
            while (end := self.ending(turn, WAIT)) is None:
                if self.breaks.asked:
                    raise BrokenOff(f"{turn} is not waited for, and goes on in the server;  :{turn}  asks for it")
                life.tell(f"{int(time.monotonic() - begun)} s so far; Ctrl-C stops the waiting")
            return end
        finally:
            life.clear()

    def last_in_image(self):
        """The last number of the sender that the image has: a message with the number 0 is refused as Old, and the reply has it. To
        an image without actors nobody has posted."""
        question = {"cmd": "post", "actor": 0, "selector": "isNil", "args": [], "sender": self.sender, "seq": 0}
        try:
            self.ask(question)
        except Refused as refused:
            return refused.reply.get("last", 0)
        return 0

    def begin_again(self):
        """Behind a new connection the image may be another one, in which the numbers of turns mean others. The lines on that, and on what it
        has of the sender's messages, whose numbers go on behind them."""
        self.waiting, self.ends, self.selectors, self.epoch = [], {}, {}, None
        before = self.seen
        self.learn_epoch()
        here, self.last = self.last, self.last_in_image()
        return [self.had(here), *([ANEW] if before not in (None, self.epoch) else [])]

    def had(self, here):
        """What is said of an image that has the sender's messages up to the last number that is known, where `here` was the last."""
        if not here:
            return AGAIN
        if not self.last:
            return NEW.format(self.sender)
        return (HAS if here <= self.last else HAS_NOT).format(self.sender, self.last, here)

    def checkpoint(self):
        """Meanwhile the workers run, so which numbers the turns have that were waited for is not known."""
        counted = self.ask({"cmd": "checkpoint"})
        self.waiting, self.ends, self.selectors, self.epoch = [], {}, {}, None
        return counted
