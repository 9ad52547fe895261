"""The classes and methods that a served image has now, whoever wrote them: what `:sources` writes."""

from . import looks, symbols
from .known import Known
from .tokens import pattern


def gathered(session):
    """What the image has, and whether this session knows more: what the image never had, as one that a server has begun anew."""
    edits = looks.edits(session)
    # No class that the edits name is missing among those that are told after them.
    found = Known()
    found.note_classes(looks.classes(session))
    for (name, selector), source in symbols.installed(edits).items():
        found.install(name, selector, source)
    return found, add_others(found, session.known, ever_installed(edits))


def ever_installed(edits):
    """The class and the selector of each method that there is or was."""
    installs = [it["install"] for it in edits if "install" in it]
    return {(it["class"], pattern(it["source"])[0]) for it in installs}


def add_others(found, known, had):
    """Adds the classes that are not there, and the methods that were never there; whether there are any."""
    classes = [it for it in known.user_classes() if it.name not in found.classes]
    methods = [(name, *it) for name, own in known.classes.items() for it in own.methods.items() if (name, it[0]) not in had]
    for it in classes:
        found.define(it.name, it.parent, it.slots)
    for it in methods:
        found.install(*it)
    return bool(classes or methods)
