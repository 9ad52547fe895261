"""Wrong rules of an image's status, and of waits for turns."""

from .wrong_rule import WrongRule

LEFT = "min(EDITS_OF_A_TABLE - edits, EDITS_OF_A_RUN - (edits - image.loaded))"
EPOCH = '        if command["epoch"] != self.epoch():\n            return {"error": "Expired"}\n'
LONG = '        if command["ms"] > LONGEST_WAIT:\n            return {"error": "BadCommand"}\n'
POSTED = "    return boolean(actor.post(receiver.content, symbol.content, further))\n"
EMPTIED = "        self.items = 0\n"
UNSAVED = '        """There is no file to save in."""\n        return {"error": "BadArguments"}\n'

WRONG_EPOCHS = [
    WrongRule("a run has no limit of its own for edits", "looking", LEFT, "EDITS_OF_A_TABLE - edits"),
    WrongRule("a checkpoint gives edits back", "image", EMPTIED, EMPTIED + "        self.loaded = self.classes.edits\n"),
    WrongRule("only the user's classes are counted", "looking", "len(image.classes.all),", "len(image.classes.all) - 8,"),
    WrongRule("only the user's names are counted", "looking", "len(image.classes.names.numbers)", "len(image.classes.names.numbers) - 22"),
    WrongRule(
        "actors that were closed are not counted",
        "looking",
        '"actors": len(image.actors)',
        '"actors": sum(it.is_open for it in image.actors)',
    ),
    WrongRule("what actors post is counted", "kernel", POSTED, "    actor.image.posts += 1\n" + POSTED),
    WrongRule("counts begin anew at a checkpoint", "image", EMPTIED, EMPTIED + "        self.posts = self.steps = 0\n"),
    WrongRule("a history is never emptied", "image", EMPTIED, ""),
    WrongRule("a save needs no file", "image", UNSAVED, '        return {"ok": {"bytes": 0}}\n'),
    WrongRule("a save empties the history", "image", UNSAVED, EMPTIED + UNSAVED),
    WrongRule("a save begins an epoch", "image", UNSAVED, "        self.checkpoints += 1\n" + UNSAVED),
    WrongRule("a beginning is no item", "image", "            actor.begin()\n            self.items += 1\n", "            actor.begin()\n"),
    WrongRule("a quantum is no item", "image", "        self.steps += steps\n        self.items += 1\n", "        self.steps += steps\n"),
    WrongRule("a close is no item", "image", '"post", "close")', '"post")'),
    WrongRule("a replace is no item", "image", '"method", "replace",', '"method",'),
    WrongRule("what is refused is an item", "image", '= command["cmd"] in ITEMS and "ok" in reply', '= command["cmd"] in ITEMS'),
    WrongRule("an epoch outlasts a checkpoint", "image", "        self.checkpoints += 1\n", ""),
    WrongRule(
        "each status is an epoch",
        "image",
        "        self.told.add(self.epoch())\n",
        "        self.checkpoints += 1\n        self.told.add(self.epoch())\n",
    ),
    WrongRule("a wait is for a turn of any epoch", "image", EPOCH, ""),
    WrongRule(
        "a wait is for a turn of any epoch that was told",
        "image",
        'if command["epoch"] != self.epoch():',
        'if command["epoch"] not in self.told:',
    ),
    WrongRule(
        "an actor is looked for before the epoch",
        "image",
        EPOCH,
        '        if command["actor"] >= len(self.actors):\n            return {"error": "UnknownActor"}\n' + EPOCH,
    ),
    WrongRule("a wait takes a quantum", "image", EPOCH, EPOCH + '        self.run({"quanta": 1})\n'),
    WrongRule("a wait may be of any length", "image", LONG, ""),
    WrongRule("a wait may not be of a minute", "image", 'command["ms"] > LONGEST_WAIT', 'command["ms"] >= LONGEST_WAIT'),
]
