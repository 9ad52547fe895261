"""The actors of the image, all of them or those of a class or in a state: what `:actors` lists."""

import re
from dataclasses import dataclass
from itertools import islice

from . import looks
from .values import a_or_an, count, show, table
from .wrong import Wrong

# So many are listed at once.
LISTED = 100
# What is asked of an actor, and what is said where none is so.
STATES = {
    "running": (lambda it: it["phase"] in ("start", "frames"), "is in a turn"),
    "waiting": (lambda it: it["accepted"] > it["begun"], "has messages that wait"),
    "failed": (lambda it: isinstance(it["phase"], dict) and "fault" in it["phase"], "failed in its last turn"),
    "closed": (lambda it: not it["open"], "is closed"),
}
ASKED = re.compile(rf"(?:([A-Z][A-Za-z0-9]*)(?:\s+|$))?(?:({'|'.join(STATES)})(?:\s+|$))?([0-9]{{1,5}})?")
HOW = "write a class after it, or  running,  waiting,  failed  or  closed,  and the number of the first actor to be listed; or nothing"


@dataclass
class Asked:
    """Which actors are to be listed: of a class, in a state, and from which number on."""

    class_name: str
    state: str
    first: int

    def is_met(self, it):
        return self.class_name in (None, it["class"]) and (self.state is None or STATES[self.state][0](it))

    def words(self, first):
        """As it is typed, from another number on."""
        return " ".join([it for it in (self.class_name, self.state) if it] + [str(first)])

    def none(self, there):
        """What is said where no actor is as it is asked, of so many."""
        of_class = f" is {a_or_an(self.class_name)}" if self.class_name else ""
        in_state = f" {STATES[self.state][1]}" if self.state else ""
        behind = f" from {self.first} on" if self.first else ""
        return f"of {count(there, 'actor')} none{behind}{of_class}{' that' if of_class and in_state else ''}{in_state}"


def actors(session, rest):
    match = ASKED.fullmatch(rest)
    if not match:
        raise Wrong(HOW)
    asked = Asked(match[1], match[2], int(match[3] or 0))
    if asked.class_name or asked.state:
        list_those(session, asked)
    else:
        list_all(session, asked.first)


def list_all(session, first):
    found, there = looks.actors(session, first, LISTED)
    session.tell(rows(session, found))
    if not there:
        session.say("there is no actor yet; make one as in  c := Counter actor")
    elif len(found) < there:
        more = first + len(found)
        goes_on = f"; :actors {more}  goes on" if found and more < there else ", numbered from 0"
        session.say(f"the image has {count(there, 'actor')}{goes_on}")


def list_those(session, asked):
    """Lists those that are asked for. Refused if there is no such class."""
    if asked.class_name:
        looks.methods(session, asked.class_name)
    found = list(islice((it for it in looks.every_actor(session, asked.first) if asked.is_met(it)), LISTED + 1))
    session.tell(rows(session, found[:LISTED]))
    if not found:
        session.say(asked.none(looks.actors(session, 0, 1)[1]))
    elif len(found) > LISTED:
        session.say(f"there are more; :actors {asked.words(found[LISTED]['actor'])}  goes on")


def rows(session, found):
    """The lines for some actors; none for none."""
    if not found:
        return []
    listed = [["actor", "name", "class", "turn", "waiting", ""]]
    for it in found:
        names = [name for name, value in session.known.names.items() if value == {"ref": it["actor"]}]
        waiting = it["accepted"] - it["begun"]
        listed.append([it["actor"], ", ".join(names), it["class"], turn_of(session, it), waiting, "" if it["open"] else "closed"])
    return table(listed)


def turn_of(session, told):
    """Where the turn of an actor stands that the image told of."""
    phase, running = told["phase"], told["running"]
    if running:
        return f"runs {running['class']} >> {running['selector']}"
    if isinstance(phase, dict):
        return f"fault {phase['fault']}" if "fault" in phase else f"answered {show(phase['answer'], session.known, told['actor'])}"
    return "begins" if phase == "start" else "none yet"
