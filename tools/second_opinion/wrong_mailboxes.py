"""Wrong rules of mailboxes that close, of senders' numbers, and of the outcomes that are kept."""

from .wrong_rule import WrongRule

OPEN = "        if not actor.is_open:\n"
FULL = '        return "Full" if len(actor.pending) >= actor.capacity else None\n'
CLOSE = "        self.actors[number].is_open = False\n"
NUMBER = "        self.numbers[sender] = seq\n"
OLD = '        if seq <= last:\n            return {"error": "Old", "last": last}\n'
REFUSED = '        refused = self.refusal(number)\n        if refused:\n            return {"error": refused}\n'
EXPIRED = 'command["turn"] <= len(results) - MOST_RESULTS'

WRONG_MAILBOXES = [
    WrongRule("closing drops what is pending", "image", CLOSE, CLOSE + "        self.actors[number].pending.clear()\n"),
    WrongRule("closing does nothing", "image", CLOSE, ""),
    WrongRule("a closed mailbox that is empty takes a message", "image", OPEN, "        if not actor.is_open and actor.pending:\n"),
    WrongRule(
        "a full mailbox is Full, closed or not",
        "image",
        OPEN,
        "        if not actor.is_open and len(actor.pending) < actor.capacity:\n",
    ),
    WrongRule(
        "a full mailbox drops its oldest message",
        "image",
        FULL,
        "        if len(actor.pending) >= actor.capacity:\n            actor.pending.popleft()\n        return None\n",
    ),
    WrongRule("a mailbox closes twice", "image", "        return was_open\n", "        return True\n"),
    WrongRule("a closed actor makes closed ones", "machine", "        self.is_open = True\n", "        self.is_open = not image.actors or image.actors[-1].is_open\n"),
    WrongRule("a number may be used again", "image", OLD, OLD.replace("<=", "<")),
    WrongRule("numbers are not looked at", "image", OLD, ""),
    WrongRule("a refused post takes its number", "image", REFUSED, NUMBER + REFUSED),
    WrongRule("a mailbox's refusal comes before a number's", "image", OLD + REFUSED, REFUSED + OLD),
    WrongRule("number 0 may be the first", "image", "self.numbers.get(sender, 0)", "self.numbers.get(sender, -1)"),
    WrongRule("all clients number together", "image", NUMBER, "        self.numbers = dict.fromkeys(range(65536), seq)\n"),
    WrongRule("63 outcomes are kept", "image", EXPIRED, EXPIRED + " + 1"),
    WrongRule("65 outcomes are kept", "image", EXPIRED, EXPIRED + " - 1"),
    WrongRule("all outcomes are kept", "image", EXPIRED, "False"),
    WrongRule("the first outcomes are kept", "image", EXPIRED, 'command["turn"] > MOST_RESULTS'),
    WrongRule(
        "close of a reference is looked up",
        "language",
        '"post:with:with:", "close"), "class"',
        '"post:with:with:"), "class"',
    ),
]
