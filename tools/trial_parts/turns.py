"""The turns of a served image that go on."""

from .client import Client

ACTORS = {"cmd": "actors", "from": 0, "most": 4096}


def turns(path):
    """Each as its actor and its number, of an image of at most 4,096 actors. Who asks has a session of his own."""
    with Client(path) as session:
        return {(it["actor"], it["begun"]) for it in session.done(ACTORS)["actors"] if it["phase"] in ("start", "frames")}
