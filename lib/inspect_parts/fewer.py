"""What bin/fewer-edits and bin/fewer-names have in common: an image file is written anew, with less of one thing."""

import argparse
import os
import sys

from common.compact import compact

from . import words
from .deep import deeply
from .held import refuse_journal
from .reading import read_image
from .refused import BadImage


def frames(actors):
    """All frames of the actors' turns."""
    for actor in actors:
        phase = actor["body"]["phase"]
        if isinstance(phase, dict):
            yield from phase.get("frames", [])


def file_of(image):
    """The file of an image, with all its names."""
    file = {"actors": image.actors, "edits": image.edits, "format": image.format}
    file |= {"names": image.names.given + image.names.brought, "senders": image.senders}
    return file | ({"posts": image.posts, "steps": image.steps} if image.format > 1 else {})


def world(image):
    """What is to be as it was: the classes with their methods, and those in which turns are."""
    classes = [
        (it.name, it.parent and it.parent.name, it.own_slots, {key: method.source for key, method in it.methods.items()})
        for it in image.classes.all.values()
    ]
    methods = image.classes.methods
    turns = [(methods[it["method"]].name, methods[it["method"]].source) for it in frames(image.actors)]
    return classes, turns


def written(fewer, count, name, new):
    """Writes the new file, and answers the two counts."""
    refuse_journal(os.path.realpath(name))
    with open(name, "rb") as file:
        image = read_image(file.read())
    text = compact(fewer(image)) + "\n"
    after = read_image(text.encode())
    assert world(after) == world(image), "the classes would be others"
    rights = os.stat(name).st_mode & 0o777
    with os.fdopen(os.open(new, os.O_WRONLY | os.O_CREAT | os.O_EXCL, rights), "w", encoding="utf-8") as file:
        file.write(text)
        file.flush()
        os.fsync(file.fileno())
    return count(after), count(image)


def told(fewer, count, name, new):
    """The counts, and what is said of an error."""
    try:
        return written(fewer, count, name, new), None
    except BadImage as bad:
        return None, f"{name}: {bad.line()}"
    except OSError as error:
        return None, f"{error.filename or new}: {error.strerror}"


def run(tool, doc, thing, fewer, count, counted_with=""):
    """What a tool does: it writes the file that `fewer` makes of an image, and says how many there are now of the things that it counts."""
    plain = argparse.RawDescriptionHelpFormatter
    parser = argparse.ArgumentParser(prog=tool, description=doc, formatter_class=plain, usage=argparse.SUPPRESS)
    parser.add_argument("file", metavar="FILE", help="an image file")
    parser.add_argument("new", metavar="NEW", help="where the other one is written")
    given = parser.parse_args()
    counts, error = deeply(lambda: told(fewer, count, given.file, given.new))
    if error:
        sys.exit(f"{tool}: {error}")
    after, before = counts
    print(f"{given.new}: {words.count(after, thing)}{counted_with}, of {before:,} in {given.file}")
