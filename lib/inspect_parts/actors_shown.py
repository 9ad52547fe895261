"""The actors: a table of all, and a section for each."""

from .markup import element, joined, row, table
from .turns_shown import state, turn
from .words import Values, actor_link, class_link, count, object_link, sender_link

HEADS = ("actor", "class", "mailbox", "capacity", "pending", "state")


def actors_part(image):
    """Without actors there is no table."""
    inside = [element("h2", "Actors")]
    if not image.actors:
        inside.append(element("p", "none"))
    else:
        values = [Values(number, actor) for number, actor in enumerate(image.actors)]
        rows = [actor_row(image, number, actor, values[number]) for number, actor in enumerate(image.actors)]
        inside.append(table(HEADS, rows))
        inside += [actor_section(image, number, actor, values[number]) for number, actor in enumerate(image.actors)]
    return element("section", joined(inside, "\n"), id="actors")


def is_open(actor):
    return "open" if actor["open"] else "closed"


def actor_row(image, number, actor, values):
    name = class_link(actor["class"])
    return row(actor_link(number), name, is_open(actor), actor["capacity"], len(actor["pending"]), state(image, actor, values))


def actor_section(image, number, actor, values):
    title = element("h3", f"actor {number}: ", object_link(actor["class"]))
    about = f"mailbox {is_open(actor)}, capacity {actor['capacity']:,}; "
    about += f"its last number as a sender is {actor['last']}" if actor["last"] else "has posted nothing"
    parts = [title, element("p", about), objects(image, number, actor, values), *turn(image, actor, values)]
    return element("section", *parts, *pending(actor, values), id=f"actor-{number}", of="actor")


def objects(image, number, actor, values):
    rows = []
    for place, one in enumerate(actor["body"]["objects"]):
        slots = zip(image.classes.all[one["class"]].slots, one["slots"])
        named = [element("li", element("var", name), " = ", values.show(value)) for name, value in slots]
        shown = element("ul", *named, of="slots") if named else "no instance variables"
        rows.append(row(place, object_link(one["class"]), shown, id=f"object-{number}-{place}"))
    return table(("object", "class", "instance variables"), rows)


def pending(actor, values):
    """The messages that wait, the next one first."""
    if not actor["pending"]:
        return [element("p", "no message is pending")]
    rows = [
        row(place + 1, values.message(it["selector"], it["args"]), sender_link(it["sender"]), it["seq"])
        for place, it in enumerate(actor["pending"])
    ]
    title = element("h4", count(len(rows), "pending message"))
    return [title, table(("place", "message", "sender", "number"), rows)]
