"""The page of an image: its parts in their order."""

import os

from smalltalk.language import KERNEL_CLASSES

from .actors_shown import actors_part
from .classes_shown import classes_part
from .markup import Markup, element, joined, link
from .senders_shown import names_part, senders_part
from .words import count

STYLE = os.path.join(os.path.dirname(os.path.realpath(__file__)), "page.css")
PARTS = ("summary", "classes", "actors", "names", "senders")


def page(image, title):
    with open(STYLE, encoding="utf-8") as file:
        style = Markup("\n" + file.read())
    # Elements without an end are written by hand: there is no child to escape in them.
    head = element(
        "head",
        Markup('<meta charset="utf-8"><meta name="viewport" content="width=device-width, initial-scale=1">'),
        Markup('<meta name="color-scheme" content="light dark">'),
        element("title", title + ": an image"),
        element("style", style),
    )
    links = element("nav", joined([link(part, part.capitalize()) for part in PARTS], " "))
    parts = [summary(image), classes_part(image), actors_part(image), names_part(image), senders_part(image)]
    body = element("body", element("header", element("h1", title), links), element("main", joined(parts, "\n")))
    return "<!DOCTYPE html>\n" + element("html", head, "\n", body, lang="en") + "\n"


def summary(image):
    cells = [cell for name, what in facts(image) for cell in (element("dt", name), element("dd", what))]
    return element("section", element("h2", "Summary"), element("dl", *cells), id="summary")


def facts(image):
    """What the summary says."""
    kinds = [next(iter(edit)) for edit in image.edits]
    present = sum(len(one.methods) for one in image.classes.all.values())
    phases = [phase if phase == "fresh" else next(iter(phase)) for phase in (it["body"]["phase"] for it in image.actors)]
    in_turn = phases.count("start") + phases.count("frames")
    defined = len(image.classes.all) - len(KERNEL_CLASSES)
    is_open = sum(actor["open"] for actor in image.actors)
    posting = sum(actor["last"] > 0 for actor in image.actors)
    yield "format", image.format
    yield "classes", f"{len(image.classes.all):,}: {len(KERNEL_CLASSES)} of the kernel and {defined:,} defined"
    told = ("define", "install", "remove", "reparent") if "reparent" in kinds else ("define", "install", "remove")
    edits = ", ".join(count(kinds.count(kind), kind) for kind in told)
    yield "edits", f"{len(kinds):,}: {edits}"
    yield "methods", f"{present:,} present"
    yield "names", f"{len(image.names.given):,} beyond the kernel's"
    yield "actors", f"{len(phases):,}: {is_open:,} open, {len(phases) - is_open:,} closed; {in_turn:,} in a turn"
    yield "objects", f"{sum(len(actor['body']['objects']) for actor in image.actors):,}, with the actors themselves"
    yield "pending", count(sum(len(actor["pending"]) for actor in image.actors), "message")
    yield "senders", f"{count(len(image.senders), 'client')}, and {count(posting, 'actor')} that posted"
    yield "counted", f"{count(image.posts, 'post')} and {count(image.steps, 'step')}"
