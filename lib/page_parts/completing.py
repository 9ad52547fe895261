"""What Tab completes in the page's workspace: the words that bin/workspace has, of the whole image."""

import re

from workspace_parts.known import KnownActor, KnownClass
from workspace_parts.terminal import ENDS, candidates

# Commands that take a file, of which a page shows none.
OF_FILES = re.compile(r"\s*:(load|save|sources|log)\s")
# So many words are told at most.
MOST = 500


class AllKnown:
    """What is completed: the names that were given, and all classes, methods and actors."""

    def __init__(self, names, kept, rows):
        self.names, self.kept, self.rows = names, kept, rows
        self.classes = {it.name: self.known(it) for it in list(kept.classes.values())}

    def known(self, it):
        methods = {selector: self.kept.installs[version][2] for selector, version in list(it.methods.items())}
        return KnownClass(it.name, it.above, it.slots, methods)

    def selectors(self, name):
        """Those that an object of the class understands and that have a source; of all classes if it is none."""
        found = list(self.kept.chain(name)) or list(self.kept.classes.values())
        return sorted({selector for it in found for selector in list(it.methods)})

    def actor(self, number):
        return KnownActor(self.rows.class_of(None, number))


def complete(known, before, absent):
    """The word that ends a text, and what it may become. `absent` are the commands that are not there."""
    start = max(before.rfind(it) for it in ENDS) + 1
    word = before[start:]
    found = [] if OF_FILES.match(before) else candidates(known, before[:start], word)
    return {"word": word, "found": [it for it in found if it.strip(": ") not in absent][:MOST]}
