"""Trials of epochs: no client is told the answer of another message, and no epoch comes back with a later server."""

import functools
import random
import time

from sockets_parts.resources import LONGEST_WAIT
from sockets_parts.together import run_together
from trial_parts.patience import PATIENCE, until

# How many messages each client has answered at the least, and how many it must see to be of an epoch of before.
ANSWERED, EXPIRED = 300, 20
# So many messages are posted between two checkpoints at most: then there is enough of both, however fast a machine does them.
BETWEEN = 40


class Stage:
    """An actor that answers what it is sent. `told` counts what each client was told, and `posted` what both have posted."""

    def __init__(self, post):
        self.post, self.ends = post, time.monotonic() + PATIENCE
        self.posted = {sender: 0 for sender in (1, 2)}
        self.told = {sender: {"answer": 0, "Expired": 0} for sender in (1, 2)}

    def goes_on(self):
        assert time.monotonic() < self.ends, self.told
        return not all(it["answer"] >= ANSWERED and it["Expired"] >= EXPIRED for it in self.told.values())

    def posts(self, sender, client):
        """Posts numbers that nobody else does, and waits for each by the epoch that it has asked for before."""
        seq, chance = 0, random.Random(sender)
        while self.goes_on():
            seq += 1
            epoch = client.done(cmd="status")["epoch"]
            turn = client.done(**self.post(0, "it:", [1_000_000 * sender + seq], sender, seq))["turn"]
            self.posted[sender] = seq
            time.sleep(chance.choice((0, 0, 0, 0.001)))
            reply = client.ask(cmd="wait", actor=0, epoch=epoch, ms=LONGEST_WAIT, turn=turn)
            if reply == {"error": "Expired"}:
                self.told[sender]["Expired"] += 1
            else:
                assert reply == {"ok": {"answer": 1_000_000 * sender + seq}}, (sender, seq, turn, reply)
                self.told[sender]["answer"] += 1

    def makes_checkpoints(self, client):
        """No two epochs are the same."""
        seen, chance = set(), random.Random(0)
        while self.goes_on():
            epoch = client.done(cmd="status")["epoch"]
            assert epoch not in seen, epoch
            seen.add(epoch)
            client.done(cmd="checkpoint")
            enough = sum(self.posted.values()) + chance.randrange(BETWEEN)
            until(lambda: sum(self.posted.values()) >= enough or not self.goes_on(), "the clients do not go on")
            time.sleep(chance.choice((0, 0.0005, 0.002)))


def no_answer_is_that_of_another_message(program, Server, post):
    """Two clients post and wait, and a third one makes checkpoints: each message has its own answer, or is Expired."""
    with Server(program, 4, 2) as server:
        with server.client() as client:
            client.make("A", [], "it: x ^x")
            client.actor("A")
        stage = Stage(post)
        run_together(server, *(functools.partial(stage.posts, sender) for sender in (1, 2)), stage.makes_checkpoints)


def an_epoch_ends_with_its_server(program, Server, post):
    """Three servers one after the other tell three epochs, and what one has told is no present one of another."""
    told = []
    for _ in range(3):
        with Server(program, 1, 1) as server, server.client() as client:
            client.make("A", [], "it: x ^x")
            client.actor("A")
            turn = client.done(**post(0, "it:", [1], 1, 1))["turn"]
            epoch = client.done(cmd="status")["epoch"]
            for past in told:
                reply = client.ask(cmd="wait", actor=0, epoch=past, ms=0, turn=turn)
                assert reply == {"error": "Expired"}, (past, epoch, reply)
            assert client.done(cmd="wait", actor=0, epoch=epoch, ms=LONGEST_WAIT, turn=turn) == {"answer": 1}
            assert epoch not in told, (epoch, told)
            told.append(epoch)


TRIALS = (no_answer_is_that_of_another_message, an_epoch_ends_with_its_server)
