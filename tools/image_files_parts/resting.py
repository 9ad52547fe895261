"""When a served image rests. A worker runs a message some time after the reply to its post, and a server that ends does not wait for that."""

import time

from trial_parts.patience import PATIENCE

from .program import Different

ACTORS = {"cmd": "actors", "from": 0, "most": 4096}


def is_at_rest(actor):
    """Whether an actor is in no turn and has no message. All actors are told of as they were at one moment."""
    return actor["accepted"] == actor["begun"] and actor["phase"] not in ("start", "frames")


def settle(asked):
    """Waits until the actors of an image of at most 4,096 rest, of which a server is asked."""
    ends = time.monotonic() + PATIENCE
    while not all(map(is_at_rest, asked(ACTORS)["ok"]["actors"])):
        if time.monotonic() > ends:
            raise Different("the actors do not come to rest")
