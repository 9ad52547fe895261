"""Trials of waits: that they end with the turn and not before, in time, and at a checkpoint, and that nobody else is held up by them."""

import contextlib
import functools
import random
import threading
import time

from sockets_parts.resources import LONGEST_WAIT, rests, threads, unread
from sockets_parts.together import run_together
from trial_parts.patience import until

# How many turns are waited for.
TURNS = 3_000
# The actor counts its messages, and answers how many there were.
COUNT = "a count isNil ifTrue: [count := 0]. count := count + 1. ^count"
PENDING, EXPIRED = {"error": "Pending"}, {"error": "Expired"}
# A reply that comes so many seconds late is none that was only late on a busy machine.
LATE = 50


def epoch(client):
    return client.done(cmd="status")["epoch"]


def wait(client, turn, milliseconds, of=None):
    """What is replied to a wait, and the seconds until then."""
    of = epoch(client) if of is None else of
    command = {"cmd": "wait", "actor": 0, "epoch": of, "ms": milliseconds, "turn": turn}
    began = time.monotonic()
    return client.ask(**command), time.monotonic() - began


def posts(post, begins, client):
    """Posts a message in each round."""
    for turn in range(1, TURNS + 1):
        begins.wait()
        reply = client.ask(**post(0, "a", [], 1, turn))
        assert reply == {"ok": {"turn": turn}}, reply


def waits(number, begins, client):
    """Waits for the turn of each round: from before its message is posted, while it goes on, or behind its end."""
    chance, of = random.Random(number), epoch(client)
    for turn in range(1, TURNS + 1):
        begins.wait()
        time.sleep(chance.choice((0, 0, 0.0001, 0.0003, 0.001)))
        reply, _ = wait(client, turn, LONGEST_WAIT, of)
        assert reply == {"ok": {"answer": turn}}, (turn, reply)


def waits_end_with_turns(program, Server, post):
    """One session posts, and two wait for each turn. All three begin each round at once."""
    with Server(program, 4, 2) as server:
        with server.client() as client:
            client.make("A", ["count"], COUNT)
            client.actor("A")
        begins = threading.Barrier(3, timeout=2 * LONGEST_WAIT / 1000)
        waiting = (functools.partial(waits, number, begins) for number in (1, 2))
        run_together(server, functools.partial(posts, post, begins), *waiting)
        assert server.ended()[0]["posts"] == TURNS


def with_a_turn_that_goes_on(client, post):
    """An actor whose turn 1 does not end."""
    client.make("A", [], "goes ^true", "spin [self goes] whileTrue: [nil]. ^7")
    assert client.actor("A") == 0
    assert client.ask(**post(0, "spin", [], 1, 1)) == {"ok": {"turn": 1}}


def waits_end_in_time(program, Server, post):
    """A wait for a turn that goes on, or is not posted, takes as long as it says and not much longer, and none takes no time."""
    with Server(program, 1, 2) as server, server.client() as client:
        with_a_turn_that_goes_on(client, post)
        for turn in (1, 2):
            for milliseconds in (0, 1, 30, 400):
                times = []
                for _ in range(3):
                    reply, seconds = wait(client, turn, milliseconds)
                    assert reply == PENDING and seconds >= milliseconds / 1000, (milliseconds, reply, seconds)
                    times.append(seconds)
                assert min(times) < milliseconds / 1000 + LATE, (milliseconds, times)
        client.done(cmd="method", **{"class": "A"}, source="goes ^false")
        reply, seconds = wait(client, 1, LONGEST_WAIT)
        assert reply == {"ok": {"answer": 7}} and seconds < LATE, (reply, seconds)
        again = [wait(client, 1, LONGEST_WAIT) for _ in range(3)]
        assert all(it == reply for it, _ in again) and min(seconds for _, seconds in again) < LATE, again


def a_checkpoint_ends_waits(program, Server, post):
    """Who waits is told at once, and so is who asks by the epoch of before. By the new one turn 0 is waited for."""
    with Server(program, 4, 2) as server, server.client() as client, contextlib.ExitStack() as others:
        with_a_turn_that_goes_on(client, post)
        of = epoch(client)
        waiting = [others.enter_context(server.client()) for _ in range(3)]
        for turn, other in enumerate(waiting):
            other.send({"cmd": "wait", "actor": 0, "epoch": of, "ms": LONGEST_WAIT, "turn": turn + 1})
        # Who has not been heard by then is told by the epoch of before.
        time.sleep(0.3)
        began = time.monotonic()
        client.done(cmd="checkpoint")
        assert [it.reply() for it in waiting] == [EXPIRED] * 3 and time.monotonic() - began < LATE
        assert epoch(client) != of and wait(client, 1, 0, of)[0] == wait(client, 1, LONGEST_WAIT, "")[0] == EXPIRED
        assert wait(client, 0, 30)[0] == PENDING
        client.done(cmd="method", **{"class": "A"}, source="goes ^false")
        assert wait(client, 0, LONGEST_WAIT)[0] == {"ok": {"answer": 7}}


def a_waiting_client_that_leaves_frees_its_place(program, Server, post):
    """Each of 64 clients waits and leaves: once the time of the waits is over, their places are free."""
    with Server(program, 1000, 2) as server:
        with server.client() as client:
            with_a_turn_that_goes_on(client, post)
            of = epoch(client)
        until(lambda: len(threads(server)) == 3, "the session of the first client goes on")
        clients = [server.client() for _ in range(64)]
        for it in clients:
            it.send({"cmd": "wait", "actor": 0, "epoch": of, "ms": 2_000, "turn": 1})
        until(lambda: len(threads(server)) == 3 + 64, "not all clients have a session")
        for it in clients:
            it.leave()
        until(lambda: len(threads(server)) == 3, "sessions whose clients have left go on")
        with server.client() as client:
            assert wait(client, 1, 0, of)[0] == PENDING


def others_go_on_beside_waits(program, Server, post):
    """While 48 sessions wait, others are answered, the processor has nothing to do, and the turns of other actors end. A wait that is over
    before the turn was posted is asked for again."""
    with Server(program, 50, 2) as server, server.client() as client, contextlib.ExitStack() as others:
        client.make("A", ["count"], COUNT)
        assert [client.actor("A") for _ in range(2)] == [0, 1]
        of = epoch(client)
        waiting = [others.enter_context(server.client()) for _ in range(48)]
        asked, goes_on = {"cmd": "wait", "actor": 0, "epoch": of, "ms": LONGEST_WAIT, "turn": 1}, 0
        for it in waiting:
            it.send(asked)
        assert rests(server), "sessions that wait run"
        for number in range(1, 201):
            client.done(cmd="method", **{"class": "A"}, source=f"b ^{number}")
            assert client.ask(**post(1, "b", [], 1, number)) == {"ok": {"turn": number}}
            assert client.wait(1, number) == {"ok": {"answer": number}}
            goes_on += not any(map(unread, waiting))
        assert goes_on, "others are held up by those that wait"
        client.done(**post(0, "a", [], 2, 1))
        for it in waiting:
            while (reply := it.reply()) == PENDING:
                it.send(asked)
            assert reply == {"ok": {"answer": 1}}, reply


TRIALS = (
    waits_end_with_turns,
    waits_end_in_time,
    a_checkpoint_ends_waits,
    a_waiting_client_that_leaves_frees_its_place,
    others_go_on_beside_waits,
)
