"""How the place of a fault is found, and after notUnderstood what can be asked."""

from . import looks
from .known import near

WHICH = "if nil was asked, this answers what:  UndefinedObject >> doesNotUnderstand: name  ^name"
ELSEWHERE = "to find the place, see how far the methods came, as in  :stats Counter bump"


def lines(session, turn, fault):
    """The image is asked what the turn's message runs."""
    name, selector = looks.actor(session, turn.actor), session.turns.selectors.get(turn)
    if not selector:
        return [ELSEWHERE]
    for sent in (selector, "doesNotUnderstand:"):
        found = looks.source(session, name, sent)
        if found and "source" in found:
            which = [WHICH] if fault == "notUnderstood" and sent == selector else []
            return [f"to find the place:  :stats {found['class']} {sent}", *which]
    understood = looks.understood(session, name)
    list_of = f"{' '.join(understood)}{near(selector, understood)}"
    return [f"{name} has no method {selector}, and no class above it has one", f"{name} understands:  {list_of}"]
