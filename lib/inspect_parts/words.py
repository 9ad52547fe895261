"""Numbers, things and values in words, with links to what they name."""

from functools import cache

from .markup import Markup, element, joined, link

VOWELS = "AEIOUaeiou"
# What is the plural of a thing, where it is not with an s.
PLURALS = {"class": "classes"}


def count(number, thing):
    """As in `2 methods`."""
    return f"{number:,} {thing if number == 1 else PLURALS.get(thing, thing + 's')}"


def article(name):
    return "an " if name[0] in VOWELS else "a "


@cache
def class_link(name):
    return link(f"class-{name}", name)


@cache
def object_link(name):
    """As in `a Counter`, with a link to the class."""
    return joined([article(name), class_link(name)])


def actor_link(number):
    return link(f"actor-{number}", f"actor {number}")


def sender_link(sender):
    return actor_link(sender["ref"]) if type(sender) is dict else link(f"client-{sender}", f"client {sender}")


def method_link(method):
    return link(f"edit-{method.place}", method.name)


class Values:
    """Values of one actor, as Smalltalk prints them."""

    def __init__(self, number, actor):
        self.number, self.objects = number, actor["body"]["objects"]

    def show(self, value):
        return element("span", self.text(value), of="value")

    def text(self, value):
        if value is None:
            return "nil"
        if type(value) is bool:
            return "true" if value else "false"
        if type(value) is int:
            return value
        [(kind, what)] = value.items()
        if kind == "sym":
            return "#" + what
        if kind == "class":
            return joined(["the class ", class_link(what)])
        return actor_link(what) if kind == "ref" else self.object(what)

    def object(self, place):
        name = self.objects[place]["class"]
        return link(f"object-{self.number}-{place}", f"{article(name)}{name} (object {place})")

    def show_all(self, values):
        return joined(map(self.show, values), ", ") if values else Markup("none")

    def message(self, selector, args):
        """A message as it is typed."""
        keywords = selector.replace(":", ": ").split() if ":" in selector else [selector]
        parts = [part for keyword, value in zip(keywords, args) for part in (keyword, self.show(value))]
        return element("code", joined(parts or [selector], " "))
