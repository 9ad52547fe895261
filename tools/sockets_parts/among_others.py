"""Trials of a session that fails while others post to the same actor: the posts are all told, those of the failed session too."""

import socket
import threading

from sockets_parts.resources import threads, unread
from sockets_parts.sessions import told
from trial_parts.patience import PATIENCE, until

# How many messages each session posts.
EACH = 100
WORKERS = 2
# How many checkpoints the last session makes.
CHECKPOINTS = 10
# The actor counts its messages, and answers how many there were. The first one takes more steps, to make the count.
COUNT = "a count isNil ifTrue: [count := 0]. count := count + 1. ^count"
STEPS, MORE_STEPS = 13, 2


class Stage:
    """A server with one actor, and what its sessions have found."""

    def __init__(self, server, post):
        self.server = server
        self.post = post
        self.replied = 0
        self.counts = []
        self.tens = threading.Semaphore(0)
        self.errors = []

    def message(self, sender, seq):
        return self.post(0, "a", [], sender, seq)

    def accepted(self, client, sender):
        """The turn of a message that is posted until it is accepted, each time with a new number: the mailbox may be full."""
        seq = 1
        while (reply := client.ask(**self.message(sender, seq))) == {"error": "Full"}:
            seq += 1
        assert "ok" in reply, reply
        return reply["ok"]["turn"]

    def posts(self, client, sender):
        """Posts until its messages are accepted, each with a new number: a mailbox may be full."""
        seq, accepted = 0, 0
        while accepted < EACH:
            seq += 1
            reply = client.ask(**self.message(sender, seq))
            assert "ok" in reply or reply == {"error": "Full"}, reply
            accepted += "ok" in reply
            if sender == 1 and "ok" in reply and accepted % (EACH // CHECKPOINTS) == 0:
                self.tens.release()

    def fails(self, client, sender):
        """Posts half of its messages, and again until one is accepted, since a mailbox may be full, and waits until there are replies, of
        which it reads none. Then it reads no more, so that the next write to it fails, posts the other half and leaves."""
        half, sent = EACH // 2, 0
        while not self.replied:
            sent += half
            client.send(*(self.message(sender, seq) for seq in range(sent - half + 1, sent + 1)))
            until(lambda: unread(client).count(b"\n") == sent, "posts are not replied to")
            self.replied = unread(client).count(b'"ok"')
        client.socket.shutdown(socket.SHUT_RD)
        client.send(*(self.message(sender, seq) for seq in range(sent + 1, sent + half + 1)))

    def makes_checkpoints(self, client, _sender):
        """Makes a checkpoint each time that the first sender has posted a tenth of its messages."""
        for _ in range(CHECKPOINTS):
            assert self.tens.acquire(timeout=PATIENCE), "the first sender does not go on"
            self.counts.append(client.done(cmd="checkpoint"))

    def run(self, part, sender):
        try:
            with self.server.client() as client:
                part(client, sender)
        except BaseException as error:
            self.errors.append(f"sender {sender}: {error!r}")
            raise

    def run_together(self, *parts):
        """Lets sessions run at once, each in a part, and waits until they have ended, also in the server."""
        running = [threading.Thread(target=self.run, args=(part, number + 1)) for number, part in enumerate(parts)]
        for thread in running:
            thread.start()
        for thread in running:
            thread.join()
        assert not self.errors, self.errors
        until(lambda: len(threads(self.server)) == WORKERS + 2, "sessions whose clients have left go on")


def play_with(server, post, has_checkpoints):
    """Four sessions post at once, of which the last one fails. The answer is how many messages the actor has got in the end, by its
    own count, and how many steps it has taken for them."""
    stage = Stage(server, post)
    with server.client() as first:
        first.make("A", ["count"], COUNT)
        assert first.actor("A") == 0
        parts = [stage.posts, stage.posts, stage.posts, stage.fails]
        stage.run_together(*parts, *([stage.makes_checkpoints] if has_checkpoints else []))
        turn = stage.accepted(first, 9)
        count = first.wait(0, turn)["ok"]["answer"]
        assert stage.replied <= count - 1 - 3 * EACH <= stage.replied + EACH // 2, (count, stage.replied)
        assert has_checkpoints or turn == count, (turn, count)
        steps = STEPS * count + MORE_STEPS
        if has_checkpoints:
            are_told(stage.counts, first.done(cmd="checkpoint"), count, steps)
    return count, steps


def are_told(counts, last, count, steps):
    """Checkpoints tell the posts and steps that there have been, and no more: turns are numbered anew, and counts go on."""
    assert last == {"posts": count, "steps": steps}, (last, count, steps)
    assert len(counts) == CHECKPOINTS
    for number, (it, later) in enumerate(zip(counts, [*counts[1:], last])):
        assert EACH // CHECKPOINTS * (number + 1) <= it["posts"] <= later["posts"], (number, counts)
        assert it["steps"] <= later["steps"] and it["steps"] <= STEPS * it["posts"] + MORE_STEPS, (number, counts)


def try_with(program, Server, post, has_checkpoints):
    """What is told in the end is what the actor has counted, and one session failed."""
    found = []

    def play(server):
        found.extend(play_with(server, post, has_checkpoints))

    posts, edits, steps, names = told(program, Server, WORKERS, 6 if has_checkpoints else 5, play)
    assert [posts, steps] == found and edits == 2, (posts, steps, found, edits)
    assert names == ["WriteFault"], names


def a_session_fails_among_others(program, Server, post):
    """The posts that are told are those that the actor got, also where a session ended in their midst."""
    try_with(program, Server, post, False)


def checkpoints_are_made_among_sessions(program, Server, post):
    """So it is where checkpoints are made meanwhile."""
    try_with(program, Server, post, True)


TRIALS = (a_session_fails_among_others, checkpoints_are_made_among_sessions)
