"""The script of the measurement of edits: 500 classes, 500 methods, and an actor whose turn does not end. With 1,000 edits behind
these it has some 2,000, of which an image takes 2,048 at most.

The classes stand in ten chains of 50. The actor is of the last class of the first chain, and sends itself 60 messages whose methods
stand in that chain's first class, again and again: a send that is not answered by its call site walks through 50 classes. So a
quantum of 1,024 steps sends some 200 messages at 60 call sites."""

from common.compact import compact

CHAINS, LONG, SENT, METHODS = 10, 50, 60, 500


def name_of(chain, place):
    return f"C{chain}x{place}"


def lines():
    """The commands that make classes, methods and the actor, and post its message."""
    for chain in range(CHAINS):
        for place in range(LONG):
            above = name_of(chain, place - 1) if place else "Object"
            yield {"cmd": "define", "name": name_of(chain, place), "slots": [], "super": above}
    for number in range(SENT):
        yield {"class": name_of(0, 0), "cmd": "method", "source": f"s{number} ^1"}
    sends = ". ".join(f"self s{number}" for number in range(SENT))
    yield {"class": name_of(0, LONG - 1), "cmd": "method", "source": f"go: n | i | i := 0. [i < n] whileTrue: [{sends}. i := i + 1]. ^i"}
    for number in range(METHODS - SENT - 1):
        yield {"class": name_of(number // LONG + 1, number % LONG), "cmd": "method", "source": f"u ^{number}"}
    yield {"class": name_of(0, LONG - 1), "cmd": "actor"}
    yield {"actor": 0, "args": [1_000_000_000], "cmd": "post", "selector": "go:", "sender": 1, "seq": 1}


def script(times, runs, edits):
    """The commands, and then so many times a quantum, or an edit of a method that nobody sends, or both."""
    words = list(lines())
    for number in range(times):
        if runs:
            words.append({"cmd": "run", "quanta": 1})
        if edits:
            words.append({"class": name_of(1, 0), "cmd": "method", "source": f"unrelated ^{number}"})
    return "".join(compact(word) + "\n" for word in words)
