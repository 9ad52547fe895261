"""Trials on files that the second implementation writes after random scripts, and on random changes of them."""

import collections
import copy
import json
import random

from inspect_parts.page import page
from inspect_parts.reading import read_image
from inspect_parts.refused import BadImage
from second_opinion.scripts import CutTurns
from second_opinion.sources import Sources

from .checked import check_page
from .try_common import good_files, read
from .written import Written, file_text

SEED = 20240613
SCRIPTS = 8
LINES = 250
# A file is looked at after so many commands of a script.
EVERY = 25
CHANGES = 2500
PLACES = ("json", "shape", "names", "edits", "actors", "senders")
STRAY = [0, 1, -1, 2, 64, 2**31, 2**63, 2**64 - 1, 2**64, 1.5, None, True, False, "", "a", "+", "fresh", "Object", "<b>", [], {}]
STRAY += [{"ref": 0}, {"ref": 9}, {"local": 0}, {"local": 1}, {"sym": "foo"}, {"class": "A"}, {"fault": "overflow"}, [1, 1]]


def files(rng, scripts=SCRIPTS):
    """Files in the middle of random scripts, in which turns are cut by quanta and methods are edited."""
    for _ in range(scripts):
        script = CutTurns(rng, Sources(rng)).grow(LINES)
        image = Written(script.quantum, script.capacity)
        for number, command in enumerate(script.commands):
            image.reply(command)
            if number % EVERY == 0:
                yield copy.deepcopy(image.file())


def generated():
    """Each is taken, and has a page that is right."""
    phases = collections.Counter()
    count = 0
    for file in files(random.Random(SEED)):
        image = read_image(file_text(file).encode())
        check_page(page(image, "generated"), image)
        phases.update(it if it == "fresh" else next(iter(it)) for it in (actor["body"]["phase"] for actor in file["actors"]))
        count += 1
    if not {"fresh", "frames", "answer", "fault"} <= phases.keys():
        raise AssertionError(f"there are only {phases}")
    return count


def places_in(value):
    """All places of a JSON value: what holds each, and its key there."""
    left = [value]
    while left:
        inside = left.pop()
        for key in inside if isinstance(inside, dict) else range(len(inside)):
            yield inside, key
            if isinstance(inside[key], (dict, list)):
                left.append(inside[key])


def change(rng, file):
    """Changes one place at random."""
    all_places = list(places_in(file))
    inside, key = rng.choice(all_places)
    other, other_key = rng.choice(all_places)
    kind = rng.random()
    if kind < 0.2:
        del inside[key]
    elif kind < 0.35 and isinstance(inside, list):
        inside.insert(key, copy.deepcopy(inside[key]))
    elif kind < 0.5 and type(inside[key]) is int:
        inside[key] += rng.choice([-1, 1])
    elif kind < 0.6:
        inside[key] = copy.deepcopy(other[other_key])
    elif kind < 0.7 and isinstance(inside[key], str) and inside[key]:
        inside[key] = inside[key][: rng.randrange(len(inside[key]))] + rng.choice(["", "<", "&", '"', "\n", "\u00e9", "x"])
    else:
        inside[key] = copy.deepcopy(rng.choice(STRAY))


def text_of(rng, file):
    """Seldom a text that is cut."""
    text = file_text(file).encode()
    return text[: rng.randrange(len(text))] if rng.random() < 0.02 else text


def at_random():
    """A changed file is refused by one of the places, or its page is right. Nothing else comes of it."""
    rng = random.Random(SEED)
    texts = [read(path) for path in good_files().values()]
    texts += [file_text(file).encode() for file in files(rng, 2)]
    ends = collections.Counter()
    for _ in range(CHANGES):
        file = json.loads(rng.choice(texts))
        for _ in range(rng.choice([1, 1, 1, 2])):
            change(rng, file)
        try:
            image = read_image(text_of(rng, file))
            check_page(page(image, "changed"), image)
            ends["good"] += 1
        except BadImage as bad:
            if len(bad.line().splitlines()) != 1 or not bad.line().isascii():
                raise AssertionError(f"{bad.line()!r} is not one line") from None
            ends[bad.place] += 1
    if ends.keys() != {*PLACES, "good"}:
        raise AssertionError(f"there are only {ends}")
    return CHANGES


TRIALS = (generated, at_random)
