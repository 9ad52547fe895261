"""The versions of a method, each with what differs from the one before it: a minus stands before the lines that are gone, a plus before
those that are new, and marks below the words."""

import difflib
import re

from . import shown

# Of a method with more lines so many are shown around those that differ.
SHORT, AROUND = 12, 2
DOTS = "  .."
# Where of the shorter line no more than this is in the other one too, nothing is marked: nearly all would be.
ALIKE = 0.5
# In longer lines no words are compared.
WIDEST = 1_000
WORD = re.compile(r"\s+|[A-Za-z0-9]+:?|\S")


def versions(name, selector, rows):
    """The lines for all installs and removals of a method, oldest first. What comes first, or behind a removal, stands whole."""
    before = {"removed": True}
    for row in rows:
        if "removed" in before or "removed" in row:
            yield from shown.version(name, row)
        elif row["source"] == before["source"]:
            yield f"version {row['version']}: {name} >> {selector}  as in version {before['version']}"
        else:
            yield f"version {row['version']}: {name} >> {selector}"
            yield from difference(before["source"].split("\n"), row["source"].split("\n"))
        before = row


def difference(old, new):
    """The lines of a source, with those of the one before it that are gone."""
    matcher = difflib.SequenceMatcher(None, old, new, autojunk=False)
    groups = [matcher.get_opcodes()] if len(new) <= SHORT else list(matcher.get_grouped_opcodes(AROUND))
    for place, group in enumerate(groups):
        if place or group[0][3] > 0:
            yield DOTS
        for tag, old_from, old_to, new_from, new_to in group:
            if tag == "equal":
                yield from (f"  {line}".rstrip() for line in new[new_from:new_to])
            else:
                yield from replaced(old[old_from:old_to], new[new_from:new_to])
    if groups and groups[-1][-1][4] < len(new):
        yield DOTS


def replaced(old, new):
    """Lines that are gone, and those in their place. Where it is one for one, the words that differ are marked."""
    if len(old) != len(new) or max(map(len, old + new)) > WIDEST:
        yield from [f"- {line}" for line in old] + [f"+ {line}" for line in new]
        return
    for gone, come in zip(old, new):
        gone_words, come_words = WORD.findall(gone), WORD.findall(come)
        matcher = difflib.SequenceMatcher(None, gone_words, come_words, autojunk=False)
        alike = sum(it.size for it in matcher.get_matching_blocks()) > ALIKE * min(len(gone_words), len(come_words))
        changes = [it for it in matcher.get_opcodes() if it[0] != "equal"] if alike else []
        yield f"- {gone}"
        yield from marks(gone_words, [it[1:3] for it in changes])
        yield f"+ {come}"
        yield from marks(come_words, [it[3:5] for it in changes])


def marks(words, spans):
    """A line with marks below some words, if there are any, as they stand behind two letters."""
    marked = {place for first, end in spans for place in range(first, end)}
    marked -= {it for it in marked if words[it].isspace() and not {it - 1, it + 1} <= marked}
    line = "".join(("^" if place in marked else " ") * len(word) for place, word in enumerate(words)).rstrip()
    return [f"  {line}"] if line else []
