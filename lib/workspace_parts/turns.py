"""Messages and their turns: each is posted under the next number, and a run goes on in slices, so that it can be broken off."""

import sys
import time
from dataclasses import dataclass

from .values import count
from .wrong import BrokenOff, Refused

SENDER = 1
# Quanta of one `run`. An actor may end a turn in each, and the newest 64 outcomes are kept, so none is missed.
SLICE = 64
# Items of a history (docs/LIMITS.md). A run takes at most half of those that are left. A quantum may take two: it is not told
# whether it began a message.
HISTORY = 1_000_000
ITEMS_OF_QUANTUM = 2
# The commands that are an item each.
CALLS = ("define", "method", "replace", "remove", "reparent", "actor", "post", "close")
GOES_ON = ":run or :step goes on where it was"
ENDS_IT = (
    "an edit of a method that it sends ends it, and :close ends posts without end; a loop that sends nothing goes on until :restart; "
    ":run goes on"
)


@dataclass(frozen=True)
class Turn:
    actor: int
    number: int

    def __str__(self):
        return f"turn {self.number} of actor {self.actor}"


class Life:
    """A sign of life on a terminal, after the first second."""

    def __init__(self):
        self.shown = False
        self.next = time.monotonic() + 1

    def tell(self, so_far):
        now = time.monotonic()
        if now >= self.next and sys.stderr.isatty():
            self.next = now + 0.5
            self.shown = True
            print(f"\r{so_far} ", end="", file=sys.stderr, flush=True)

    def clear(self):
        if self.shown:
            print("\r\x1b[K", end="", file=sys.stderr, flush=True)


class Turns:
    """`waiting` are turns that were posted and have not ended yet; `ends` has those that ended and were not told of.
    `selectors` has that of each turn's message. `items` counts those of the history that the commands took, or more. `has_run` says
    whether something has run that nobody has looked at."""

    def __init__(self, connection, breaks, sender=SENDER):
        self.connection = connection
        self.breaks = breaks
        self.sender = sender
        self.last = 0
        self.items = 0
        self.waiting = []
        self.ends = {}
        self.selectors = {}
        self.has_run = False

    def ask(self, command):
        """What the reply has after `ok`."""
        reply = self.connection.ask(command)
        if "error" in reply:
            raise Refused(command, reply)
        self.items += command["cmd"] in CALLS
        return reply["ok"]

    def post(self, actor, selector, arguments):
        command = {"cmd": "post", "actor": actor, "selector": selector, "args": arguments, "sender": self.sender}
        try:
            turn = self.post_next(command)
        except Refused as refused:
            if refused.reply["error"] != "Old":
                raise
            # Somebody else posts under this number, or has before.
            self.last = refused.reply["last"]
            turn = self.post_next(command)
        self.waiting.append(Turn(actor, turn))
        self.selectors[self.waiting[-1]] = selector
        return self.waiting[-1]

    def post_next(self, command):
        """Posts a message under the next number. Meanwhile the last one may become another, behind a new connection."""
        seq = self.last + 1
        turn = self.ask({**command, "seq": seq})["turn"]
        self.last = seq
        return turn

    def outcome(self, turn):
        return self.ask({"cmd": "outcome", "actor": turn.actor, "turn": turn.number})

    def checkpoint(self):
        """Empties the history. The turns that are waited for have other numbers then. Answers what the image has counted."""
        begun = {actor: self.begun(actor) for actor in {turn.actor for turn in self.waiting}}
        counted = self.ask({"cmd": "checkpoint"})
        self.items = 0
        new = {turn: Turn(turn.actor, turn.number - begun[turn.actor]) for turn in self.waiting}
        self.selectors = {new[turn]: self.selectors[turn] for turn in self.waiting if turn in self.selectors}
        self.waiting = [new[turn] for turn in self.waiting]
        return counted

    def is_nearly_full(self):
        """Whether a tenth of the history is left, or less."""
        return HISTORY - self.items <= HISTORY // 10

    def is_full(self):
        """Whether nothing of the history is left, as far as it is known."""
        return False

    def begun(self, actor):
        """How many messages an actor has begun, which is the number of the turn that stands in it."""
        ((told,), _) = self.ask({"cmd": "actors", "from": actor, "most": 1}).values()
        return told["begun"]

    def forget(self, turn):
        """A turn that was asked for by itself is not told of again."""
        if turn in self.waiting:
            self.waiting.remove(turn)

    def end_of(self, turn):
        """Runs until a turn has ended, and says how."""
        self.go_on(None, turn)
        if turn not in self.ends:
            raise BrokenOff(f"{turn} has not ended, though nothing is ready to run")
        return self.ends.pop(turn)

    def take_ends(self):
        """The turns that have ended and were not told of, with how they ended."""
        ends, self.ends = self.ends, {}
        return ends.items()

    def go_on(self, quanta=None, turn=None):
        """Takes quanta until there were as many, the turn has ended, or nothing is ready. Returns the quanta and steps that
        were taken."""
        life, taken, steps = Life(), 0, 0
        most = max(1, (HISTORY - self.items) // 2 // ITEMS_OF_QUANTUM)
        end = most if quanta is None else min(most, quanta)
        try:
            while True:
                size = min(SLICE, end - taken)
                ran = self.run(size)
                taken, steps = taken + ran["quanta"], steps + ran["steps"]
                if turn in self.ends or ran["quanta"] < size or taken == quanta:
                    break
                self.check(taken, most, self.running(turn))
                life.tell(f"{taken:,} quanta so far; Ctrl-C breaks off")
        finally:
            life.clear()
        return taken, steps

    def may_have_run(self):
        """Whether something has run since this was asked before."""
        has_run, self.has_run = self.has_run, False
        return has_run

    def running(self, turn):
        """What is said to be running while a turn is waited for: the actor may be in an earlier one."""
        first = next((it for it in self.waiting if turn and it.actor == turn.actor), turn)
        return "the run" if turn is None else str(turn) if first == turn else f"{first}, before turn {turn.number},"

    def run(self, size):
        """One slice; which turns have ended is seen at once. One that is refused may have run."""
        ran = {"quanta": 1}
        try:
            ran = self.ask({"cmd": "run", "quanta": size})
        finally:
            self.has_run |= ran["quanta"] > 0
            for actor in {turn.actor for turn in self.waiting}:
                self.see_ends(actor)
        self.items += ITEMS_OF_QUANTUM * ran["quanta"]
        return ran

    def see_ends(self, actor):
        """The turns of an actor end in their order."""
        for turn in [it for it in self.waiting if it.actor == actor]:
            end = self.ending(turn)
            if end is None:
                return
            self.waiting.remove(turn)
            self.ends[turn] = end

    def ending(self, turn, *waited):
        """How a turn ended; None if it has not, and {} if that is no longer kept."""
        try:
            return self.outcome(turn, *waited)
        except Refused as refused:
            if refused.reply["error"] not in ("Pending", "Expired"):
                raise
            return None if refused.reply["error"] == "Pending" else {}

    def check(self, taken, most, what):
        """Breaks off if that was asked for, or to keep room in the history."""
        if self.breaks.asked:
            raise BrokenOff(f"{what} was broken off after {count(taken, 'quantum')}; {GOES_ON}")
        if taken >= most:
            stopped = f"{what} was stopped after {count(taken, 'quantum')}, to save half of the history"
            raise BrokenOff(f"{stopped}; {ENDS_IT}")
