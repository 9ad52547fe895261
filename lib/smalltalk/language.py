"""The words and numbers of the language, and what is not there yet."""

import re

LARGEST = 2**63 - 1
SMALLEST = -(2**63)

MOST_BYTES = 4096
LONGEST_WORD = 64
MOST_KEYWORDS = 8
MOST_VARIABLES = 64
DEEPEST_BRACKET = 64
MOST_INSTRUCTIONS = 1024
MOST_OPERANDS = 64
MOST_FRAMES = 128
MOST_OBJECTS = 1024
MOST_ACTORS = 65536
MOST_RESULTS = 64
# Posts of clients, and steps.
MOST_COUNTED = 2**63 - 1
# Edits that a class table holds, that a run of the program makes, and that are told at once.
EDITS_OF_A_TABLE = 4096
EDITS_OF_A_RUN = 2048
EDITS_AT_ONCE = 256
# Items of a history.
MOST_ITEMS = 1_000_000
# Milliseconds of a `wait`.
LONGEST_WAIT = 60_000
# Senders' numbers for messages.
LARGEST_SEQUENCE = 2**64 - 1
# Numbers of actors, versions that are named, and places in the edits.
LARGEST_NUMBER = 2**32 - 1

RESERVED = ("self", "super", "nil", "true", "false", "thisActor")

CONDITIONALS = ("ifTrue:", "ifFalse:", "ifTrue:ifFalse:", "ifFalse:ifTrue:", "and:", "or:")
LOOPS = ("whileTrue:", "whileFalse:")

# The classes that are there from the start, by their numbers. All but the first are directly under it.
KERNEL_CLASSES = ("Object", "SmallInteger", "True", "False", "UndefinedObject", "Symbol", "ActorRef", "Class")

# The messages by which a turn reaches past its actor, by the kind of value that gets them.
OUTER_SELECTORS = {"actor": ("post:", "post:with:", "post:with:with:", "close"), "class": ("newActor",)}

KERNEL_SELECTORS = {
    "Object": ("==", "=", "class", "isNil", "doesNotUnderstand:"),
    "SmallInteger": ("+", "-", "*", "//", "\\\\", "<", ">", "<=", ">="),
    "True": ("not", "&"),
    "False": ("not", "&"),
    "ActorRef": ("post:", "post:with:", "post:with:with:", "close"),
    "Class": ("new", "newActor"),
}


class BadSource(Exception):
    """A source is refused: what is wrong with it, and at which byte."""

    def __init__(self, kind, offset):
        super().__init__(kind, offset)
        self.kind = kind
        self.offset = offset

    def reply(self):
        return {"error": "BadSource", "kind": self.kind, "offset": self.offset}


def arguments_of(selector):
    """How many arguments a selector takes."""
    return selector.count(":") if selector[0].isalpha() else 1


NAME = "[A-Za-z][A-Za-z0-9]{0,%d}" % (LONGEST_WORD - 1)
SELECTOR = re.compile(r"%s|(%s:){1,%d}|[-+*/\\<>=~&,][+*/\\<>=~&,]?" % (NAME, NAME, MOST_KEYWORDS))


def is_selector(text):
    """Whether a text can be a selector."""
    return SELECTOR.fullmatch(text) is not None


def begins_small(word):
    """Whether a word can name a variable."""
    return "a" <= word[0] <= "z"
