"""What happened since the last prompt: turns that ended with a fault, whoever posted their messages."""

import contextlib
from dataclasses import dataclass
from typing import Optional

from . import failures
from .turns import Turn
from .values import count
from .wrong import Lost, Refused

# So many are told before a prompt, and an image counts no step behind this one (docs/LIMITS.md).
MOST_TOLD, LAST_STEP = 3, 2**63 - 1


@dataclass
class Told:
    """A fault that was told of; `step` is that of the image at which it came, once it is known."""

    turn: Turn
    fault: str
    step: Optional[int] = None


class News:
    """`after` is how many steps the image had taken when it was asked last; None where it tells of no faults. `told` are those that the
    entry has told of itself. `begun` is how many steps there were when the session began, and `kept` how many faults of before are kept
    that nobody has spoken of."""

    def __init__(self, session):
        self.session = session
        self.told, self.after, self.begun, self.kept = [], None, 0, 0

    def begin(self):
        """Of what was before it is told only how much there is. An image of one's own has just begun."""
        self.told, self.after, self.begun, self.kept = [], 0, 0, 0
        if self.session.image.is_served:
            self.after = self.begun = LAST_STEP
            with contextlib.suppress(Lost):
                self.kept = len(self.ask(0)[0])
                self.begun = self.after or 0

    def tell_kept(self):
        """Tells, once, how many faults of before are kept."""
        kept, self.kept = self.kept, 0
        if kept:
            self.session.say(f"the image keeps {count(kept, 'fault')} from before;  :faults  lists {'it' if kept == 1 else 'them'}")

    def ask(self, after):
        """The faults behind a step, and whether some of them are kept no more."""
        try:
            found = failures.kept(self.session, after)
        except Refused as refused:
            if refused.reply["error"] == "BadCommand":
                self.after = None
            return [], False
        self.after = found["steps"]
        return found["faults"], found["from"] > after and len(found["faults"]) == failures.KEPT

    def tell(self):
        """Tells what the entry has not told. That is asked for where something has run."""
        self.tell_kept()
        entry, self.told = self.told, []
        if self.after is None or not self.session.turns.may_have_run():
            return
        found, are_lost = self.ask(self.after)
        steps = {Turn(it["actor"], it["turn"]): it["step"] for it in found}
        for it in entry:
            it.step = steps.get(it.turn)
        known = {it.turn for it in entry}
        self.tell_first([it for it in found if Turn(it["actor"], it["turn"]) not in known], are_lost)

    def tell_first(self, found, are_lost):
        """Those of actors that this session has made or posted to come first."""
        found.sort(key=lambda it: not self.session.known.is_own(it["actor"]))
        for it in found[:MOST_TOLD]:
            self.session.tell_fault_of_others(Told(Turn(it["actor"], it["turn"]), it["fault"], it["step"]))
        more = len(found) - MOST_TOLD
        if more > 0:
            self.session.say(f"and {more} more{', besides those that are not kept' if are_lost else ''};  :faults  lists them")
