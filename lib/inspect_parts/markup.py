"""Elements of HTML. A text inside one is escaped, unless it is markup itself."""

from functools import lru_cache
from html import escape


class Markup(str):
    """What may stand in a page as it is."""


def markup(it):
    if type(it) is Markup:
        return it
    return str(it) if type(it) is int else escape(str(it), quote=False)


def element(name, *inside, **attributes):
    """An element. The attribute `of` is the HTML attribute class; one that is None is left out, and True stands for its name
    alone."""
    words = "".join([attribute(key, value) for key, value in attributes.items()])
    return Markup(f"<{name}{words}>{''.join([markup(it) for it in inside])}</{name}>")


def attribute(key, value):
    if value is None:
        return ""
    if value is True:
        return " " + key
    return f' {"class" if key == "of" else key}="{escape(str(value))}"'


def joined(parts, between=""):
    """Parts with a text between them."""
    return Markup(markup(between).join(map(markup, parts)))


def link(where, *inside):
    """A link to an element of the page."""
    return element("a", *inside, href="#" + where)


def table(heads, rows):
    """`rows` are elements."""
    return element("div", element("table", table_head(heads), element("tbody", *rows)), of="wide")


@lru_cache
def table_head(heads):
    return element("thead", element("tr", *(element("th", head, scope="col") for head in heads)))


def row(*cells, **attributes):
    """Numbers stand at the right."""
    return element("tr", *(element("td", cell, of="number" if type(cell) is int else None) for cell in cells), **attributes)
