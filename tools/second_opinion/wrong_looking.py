"""Wrong rules of the commands that look."""

from .wrong_rule import WrongRule

PAST = "version, text = table.past[holder, selector][-1]"
FOUND = "    found = table.find(number, selector)\n"
BEGUN = "actor.accepted - len(actor.pending)"
OWN = "    return set(KERNEL_SELECTORS.get(one.name, ())).union(one.methods)\n"

WRONG_LOOKING = [
    WrongRule(
        "an inherited method is shown as the class's own",
        "looking",
        "name = table.all[holder].name",
        "name = table.all[number].name",
    ),
    WrongRule("the version before the present one is shown", "looking", PAST, PAST.replace("[-1]", "[-2:][0]")),
    WrongRule(
        "a removed method is shown",
        "looking",
        FOUND,
        (
            "    if (number, selector) in table.past:\n"
            "        version, text = [it for it in table.past[number, selector] if it[1]][-1]\n"
            '        return {"class": command["class"], "source": text, "version": version}\n'
        )
        + FOUND,
    ),
    WrongRule("senders by super are none", "looking", 'it.name in ("Send", "SuperSend")', 'it.name == "Send"'),
    WrongRule("senders are those by super", "looking", 'it.name in ("Send", "SuperSend")', 'it.name == "SuperSend"'),
    WrongRule(
        "a question interns its selector",
        "looking",
        "    try:\n        return {",
        (
            '    if is_selector(command.get("selector", "")):\n'
            '        table.names.add([command["selector"]])\n'
            "    try:\n"
            "        return {"
        ),
    ),
    WrongRule("a question is an edit", "looking", '    """The reply to a command that looks."""\n', "    table.edits += 1\n"),
    WrongRule(
        "only the class itself is asked for its source",
        "looking",
        FOUND,
        FOUND + "    if found and found[0] != number:\n        found = None\n",
    ),
    WrongRule("a method of the kernel is no method", "looking", OWN, "    return set(one.methods)\n"),
    WrongRule(
        "a method that a user's class has of the kernel is hidden",
        "looking",
        OWN,
        OWN.replace(".union(one.methods)", " or set(one.methods)"),
    ),
    WrongRule("inherited instance variables are shown", "looking", '"slots": one.own', '"slots": one.slots'),
    WrongRule(
        "methods are listed by their versions",
        "looking",
        "key=table.names.numbers.get",
        "key=lambda it: table.past.get((number, it), [(0,)])[-1]",
    ),
    WrongRule("methods are listed by their names", "looking", "key=table.names.numbers.get", "key=str"),
    WrongRule("a post brings no name", "image", "        self.classes.names.add([selector])\n", ""),
    WrongRule(
        "a symbol that is posted is no name",
        "image",
        '                self.classes.names.add([argument["sym"]])\n',
        "                pass\n",
    ),
    WrongRule(
        "removals are no versions",
        "looking",
        "    past = table.past.get((number, selector), [])\n",
        "    past = [it for it in table.past.get((number, selector), []) if it[1]]\n",
    ),
    WrongRule(
        "the newest version is the first",
        "looking",
        "    past = table.past.get((number, selector), [])\n",
        "    past = table.past.get((number, selector), [])[::-1]\n",
    ),
    WrongRule("a version is the number of edits before it", "classes", "append((self.edits, text))", "append((self.edits - 1, text))"),
    WrongRule(
        "implementors understand the message",
        "looking",
        "one in table.all if selector in own_selectors(one)]",
        "number, one in enumerate(table.all) if table.find(number, selector)]",
    ),
    WrongRule("senders are in the order of their classes", "looking", "sorted(found, key=lambda it: it[0])", "found"),
    WrongRule(
        "the selector is asked before the class",
        "looking",
        "    number, selector = number_of(table, command), selector_of(command)\n    found",
        "    selector, number = selector_of(command), number_of(table, command)\n    found",
    ),
    WrongRule(
        "a text that is no selector is of nobody",
        "looking",
        '        raise Refused("BadName")\n',
        '        raise Refused("NoSuchMethod")\n',
    ),
    WrongRule("the last actor is left out", "looking", "image.actors[first : first + most]", "image.actors[:-1][first : first + most]"),
    WrongRule(
        "actors are told from behind the number",
        "looking",
        "image.actors[first : first + most]",
        "image.actors[first + 1 : first + 1 + most]",
    ),
    WrongRule("one actor more is told", "looking", "image.actors[first : first + most]", "image.actors[first : first + most + 1]"),
    WrongRule(
        "the count is that of the actors which are told",
        "looking",
        '"count": len(image.actors)',
        '"count": len(image.actors[first : first + most])',
    ),
    WrongRule("pending messages are begun", "looking", BEGUN, "actor.accepted"),
    WrongRule("the message in hand is not begun yet", "looking", BEGUN, BEGUN + " - actor.in_turn()"),
    WrongRule(
        "the message that waits is not accepted yet",
        "looking",
        '"accepted": actor.accepted',
        '"accepted": actor.accepted - len(actor.pending)',
    ),
    WrongRule("accepted messages count since the image was new", "machine", "        self.accepted = len(self.pending)\n", ""),
    WrongRule(
        "the turn that stands at a checkpoint is counted still",
        "looking",
        '"accepted": actor.accepted',
        '"accepted": actor.accepted + (actor.number in image.stands)',
    ),
    WrongRule("a checkpoint forgets how the turn that stands ended", "machine", "self.results[-1:]", "[]"),
    WrongRule("the first frame runs", "looking", "frame = actor.frames[-1]", "frame = actor.frames[0]"),
    WrongRule(
        "the class of the receiver is shown in place of the method's",
        "looking",
        "image.classes.all[frame.holder]",
        "image.classes.all[actor.class_of(frame.receiver)]",
    ),
    WrongRule(
        "what a message would run now is shown in place of what runs",
        "looking",
        "image.classes.all[frame.holder]",
        "image.classes.all[(image.classes.find(actor.class_of(frame.receiver), frame.method.selector) or (0,))[0]]",
    ),
    WrongRule(
        "a turn that goes on shows how the one before it ended",
        "looking",
        "    if actor.frames:\n",
        "    if actor.frames and not actor.results:\n",
    ),
    WrongRule("a turn that has ended is forgotten", "looking", "    if not actor.results:\n", "    if True:\n"),
    WrongRule("the first turn is shown in place of the last", "looking", "result = actor.results[-1]", "result = actor.results[0]"),
    WrongRule("all mailboxes are open", "looking", '"open": actor.is_open', '"open": True'),
    WrongRule(
        "a closed mailbox is open while messages wait",
        "looking",
        '"open": actor.is_open',
        '"open": actor.is_open or bool(actor.pending)',
    ),
]
