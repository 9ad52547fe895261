"""Methods in which the name of a message stands as a symbol, as it does where the message is posted."""

from . import looks
from .tokens import pattern, tokens


def methods(session, selector):
    """The class and the selector of each method that is installed now and has the symbol, by version. All edits are asked for, in which
    the sources are: these are far fewer questions than there are methods."""
    symbol = f"#{selector}"
    return [place for place, source in installed(looks.edits(session)).items() if symbol in source and has(source, symbol)]


def has(source, symbol):
    """Whether a source has a symbol, outside of comments."""
    return any(it.kind == "symbol" and it.text == symbol for it in tokens(source))


def installed(edits):
    """The sources of the methods that edits leave, by the class and the selector, in the order of their versions."""
    found = {}
    for edit in edits:
        if "remove" in edit:
            found.pop((edit["remove"]["class"], edit["remove"]["selector"]), None)
        elif "install" in edit:
            it = edit["install"]
            place = it["class"], pattern(it["source"])[0]
            found.pop(place, None)
            found[place] = it["source"]
    return found
