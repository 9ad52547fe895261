"""What a refusal or a fault means, in one sentence with what to do about it. docs/PROTOCOL.md and docs/LANGUAGE.md say when
each comes; tools/transcripts checks that none of their names is missing here. The sentences on faults are those of the library for
clients.

Words in braces are what the refused command named."""

import re

from actorimage import FAULTS

from .in_general import IN_GENERAL
from .known import KERNEL
from .statements import RESERVED

REFUSALS = {
    "BadArguments": "the message takes another number of arguments, or one of them names nothing; write a value after each "
    "colon",
    "BadCommand": "the program does not know this command; it and the workspace are not of the same version",
    "BadImage": "the image file cannot be read at {place}; take another file",
    "BadName": "{name} cannot be a name; take a letter and then letters and digits, at most 64, a capital first for a class and a "
    "small letter for a variable",
    "BadSource": "the method is not written as the language asks; mend it at the mark and type it again",
    "ClassExists": "there is a class {class} already, and its variables stay; name just these to put it under another class, or "
    "take another name",
    "Closed": "the mailbox of {actor} is closed for ever; make a new actor",
    "Cycle": "{super} is {class} itself or stands below it; take a class that does not",
    "Expired": "how turn {turn} of {actor} ended is no longer kept, or its number is 0; ask for one of the newest 64",
    "Full": "the mailbox of {actor} is full; :run makes room",
    "HistoryFull": "the history is full, often of the quanta of an endless turn, and nothing more is accepted; :checkpoint "
    "empties it",
    "KernelClass": "{class} is a class of the kernel; take Object or a class of your own",
    "KernelMethod": "{class} has this method from the kernel, where it stays; take another name, or a class of your own",
    "NoMemory": "memory ran out, and this was not done; try again, or start anew with :restart",
    "NoSuchMethod": "{class} has no method {selector} of its own; :methods lists those it has",
    "Old": "another client posts under this number as well; type it again",
    "Pending": "turn {turn} of {actor} has not ended, or not begun; :run goes on with it",
    "ReadFault": "the program could not read what was sent; start anew with :restart",
    "SlotClash": "a variable is named twice, here or in a class above; take another name",
    "SlotsDiffer": "{super} has other variables than the class above {class} has now, inherited ones counted, and objects keep theirs; "
    "take a class with the same ones",
    "Stale": "somebody has changed this method since it was shown or written here, and nothing is written; type it again to write it over "
    "what stands there now",
    "TooDeep": "a chain of classes would be over 64 long; take a class nearer to Object",
    "TooLong": "this is too long for one line to the program, 8,192 bytes; make it shorter",
    "TooMany": "there would be too many {what}; do with those there are, or begin a new image",
    "UnknownActor": "there is no {actor}; :actors lists those there are",
    "UnknownClass": "no class is named {class}; define it first, as in  {class} : Object",
    "WriteFault": "the image could not be written, for the reason above, and is not saved; its file stays, and the image goes on",
}

# What there are too many of, where it says more than "there would be too many of them".
MOST = {
    "actors": "there are 65,536 actors, and no more can be made; let the old ones do more, or begin a new image",
    "classes": "there are 1,024 classes, and no more can be defined; do with those, or begin a new image",
    "edits": "the classes were edited as often as they may, 2,048 times in a session and 4,096 times in all; with --image, :save "
    "and then :restart begin a new session, and :sources FILE writes them for a new image",
    "names": "there are 8,192 selectors and symbols, and no more can be added; do with those, or begin a new image",
    "sessions": "the program serves as many sessions as it may; try again later",
    "slots": "an object would have over 64 variables; move some into a class of their own",
}

# The kinds of bad sources; `token` is the one at the mark. sources.py says more of some.
KINDS = {
    "BadCharacter": "{token} begins nothing in this language, or is not ASCII; take it out",
    "BadPattern": "no pattern is here; begin with a name, an operator and an argument, or keywords with an argument each",
    "BadToken": "something is missing at the mark, or stands where the grammar asks for something else; mend it there",
    "BlockEscapes": "a block stands only in ifTrue:, whileTrue:, and: and their like; put what it does into a method",
    "DuplicateName": "the name {token} is taken, by another variable or by the language; take another one",
    "Nested": "brackets are nested over 64 deep; put a part into a method of its own",
    "ReadOnly": "{token} is not a variable that can be assigned to; assign to a temporary between bars",
    "TooLarge": "something is larger than docs/LIMITS.md lets it be; make it smaller, or put a part into another method",
    "UnknownName": "no variable or class is named {token}; name it between bars in the method, or in its class",
}


def explain(name, own=()):
    """What is said of a name by itself; None if it is no name of a refusal or a fault. `own` comes before the sentences here."""
    return next((sentences[name] for sentences in (own, IN_GENERAL, REFUSALS, FAULTS, KINDS) if name in sentences), None)


def names():
    return [*REFUSALS, *FAULTS, *KINDS]


def refusal(command, reply, own):
    """The sentence for a refused command. `own` comes before the sentences here."""
    name = reply["error"]
    key = reply.get("what", name)
    sentence = own.get(key) or MOST.get(key) or REFUSALS.get(name, "this was refused; docs/PROTOCOL.md says when")
    return f"{name}: " + sentence.format_map(Words(command, reply))


class Words(dict):
    """What a refused command named, for the words in braces."""

    def __init__(self, command, reply):
        super().__init__({**PLAIN, **command, **reply})
        if "actor" in command:
            self["actor"] = f"actor {command['actor']}"
        if "selector" in command:
            self["name"] = command["selector"]
        if command["cmd"] == "define":
            is_above = reply["error"] in ("UnknownClass", "KernelClass")
            self["class"] = command["super" if is_above else "name"]
            self["name"] = bad_name(command)
        if command["cmd"] == "reparent" and reply["error"] == "KernelClass" and command["class"] not in KERNEL:
            self["class"] = command["super"]


# The words where a command named nothing.
PLAIN = {
    "actor": "the actor",
    "class": "the class",
    "name": "this",
    "place": "one of its places",
    "selector": "with this name",
    "super": "the class above",
    "token": "this",
    "turn": "N",
    "what": "of these",
}


def bad_name(command):
    """The first name of a definition that is none; that of the class if it is reserved."""
    if not re.fullmatch("[A-Z][A-Za-z0-9]{0,63}", command["name"]):
        return command["name"]
    for slot in command["slots"]:
        if not re.fullmatch("[a-z][A-Za-z0-9]{0,63}", slot) or slot in RESERVED:
            return slot
    return "this"
