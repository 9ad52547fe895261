"""Kills a server with a journal at random moments, and looks at what is there afterwards.

    tools/crashes PROGRAM [--seconds N] [--seed N] [--keep FOLDER]

For N seconds (60 by default) clients post, edit, make actors, close, make checkpoints and save, until the server is killed (`kill -9`). Then
a second implementation, which is written in Python, loads the image's file and does again what the lines of the journal tell; and the
next server, which goes on from both, has the same image: all that `inspect` tells of each actor, the edits, and what was counted; now and
then it saves, and the file has the same text. So nothing is there twice or in another order, and nothing that was not told. With
`--sync 0`, which half of the servers have, all that a client was told is there. One server in eight is ended by SIGTERM instead.
"""

import argparse
import os
import random
import shutil
import signal
import subprocess
import sys
import tempfile
import threading
import time

from inspect_trials.written import file_text
from second_opinion.inspecting import inspected
from trial_parts.patience import PATIENCE

from .clients import CLASS, METHODS, Client, Told
from .journals import read, recovered
from .serving import Server

CLIENTS = 6
SYNCS = (0, 0, 1, 20, 300)


class Round:
    """One server, from its start to its end."""

    def __init__(self, program, folder, rng, number):
        self.program, self.rng, self.number = program, rng, number
        self.file = os.path.join(folder, "image")
        self.sync = rng.choice(SYNCS)
        self.server = Server(program, os.path.join(folder, f"socket{number}"), self.file, self.sync, rng.choice((1, 2, 4)))

    def run(self, tolds, wanted):
        """What is there before and what is done, and what there is afterwards, by the second implementation."""
        with self.server as server:
            if wanted is None:
                with server.client() as client:
                    client.done(CLASS)
                    for source in METHODS:
                        client.done({"class": "Account", "cmd": "method", "source": source})
                    for _ in range(4):
                        client.done({"class": "Account", "cmd": "actor"})
                    # So it is there behind each kill: without the class clients would be refused all that they do.
                    client.done({"cmd": "save"})
            else:
                self.compare(server, wanted)
            threads = [
                threading.Thread(target=Client(server.path, told, self.rng.random()).run, daemon=True) for told in tolds
            ]
            for thread in threads:
                thread.start()
            time.sleep(self.rng.choice((0.02, 0.1, 0.4, 1.0)) * self.rng.random() + 0.005)
            server.kill(signal.SIGTERM if self.rng.random() < 0.125 else signal.SIGKILL)
            for thread in threads:
                thread.join(PATIENCE)
        return recovered(self.file)

    def compare(self, server, image):
        """The server has the image that it is to have."""
        with server.client() as client:
            # What it does meanwhile is no part of the comparison: it has no work but what was begun.
            if self.rng.random() < 0.3 and not image.ready:
                client.done({"cmd": "save"})
                assert read(self.file) == file_text(image.file()).encode(), "the file that is saved differs"
            status = client.done({"cmd": "status"})
            assert status["posts"] == image.posts and status["steps"] >= image.steps, (status, image.posts, image.steps)
            if image.ready:
                return
            assert status["steps"] == image.steps, (status["steps"], image.steps)
            for actor in image.actors:
                found = client.done({"actor": actor.number, "cmd": "inspect"})
                assert found == inspected(image, actor), (actor.number, found, inspected(image, actor))


def facts(image, tolds):
    """What clients were told is there."""
    for told in tolds:
        last = image.numbers.get(told.sender, 0)
        assert last >= told.accepted, f"sender {told.sender} was told that {told.accepted} is accepted, and the last is {last}"
        assert len(image.actors) >= told.actors, f"there were {told.actors} actors, and there are {len(image.actors)}"
        assert image.classes.edits >= told.edits, f"there were {told.edits} edits, and there are {image.classes.edits}"
        for actor in told.closed:
            assert not image.actors[actor].is_open, f"actor {actor} was closed, and is open"


def tries(program, folder, seconds, seed):
    rng, ends, number, lines, kept = random.Random(seed), time.monotonic() + seconds, 0, 0, 0
    tolds, image = [Told(sender) for sender in range(1, CLIENTS + 1)], None
    while time.monotonic() < ends:
        turn = Round(program, folder, rng, number)
        image, count = turn.run(tolds, image)
        for told in tolds:
            assert not told.wrong, f"sender {told.sender} was told {told.wrong[0]}"
            assert image.numbers.get(told.sender, 0) <= told.asked, f"sender {told.sender} has a message that it has not sent"
        if turn.sync == 0:
            facts(image, tolds)
            kept += 1
        for told in tolds:
            told.asked = told.accepted = image.numbers.get(told.sender, 0)
            told.actors, told.edits, told.closed = len(image.actors), image.classes.edits, set()
        number, lines = number + 1, lines + count
        if image.classes.edits > 1800 or len(image.actors) > 3000:
            # Afresh, before an image is full.
            shutil.rmtree(folder)
            os.mkdir(folder)
            tolds, image = [Told(sender) for sender in range(1, CLIENTS + 1)], None
    return number, kept, lines


def main():
    parser = argparse.ArgumentParser(prog="tools/crashes", description=__doc__.split("\n")[0])
    parser.add_argument("program")
    parser.add_argument("--seconds", type=float, default=60)
    parser.add_argument("--seed", type=int, default=20261129)
    parser.add_argument("--keep", help="a folder for the files, which is not removed")
    options = parser.parse_args()
    folder = options.keep or tempfile.mkdtemp()
    inside = os.path.join(folder, "files")
    os.mkdir(inside)
    try:
        number, kept, lines = tries(os.path.abspath(options.program), inside, options.seconds, options.seed)
    except (AssertionError, subprocess.TimeoutExpired) as error:
        sys.exit(f"tools/crashes: {error!r}; the files are in {inside}")
    if not options.keep:
        shutil.rmtree(folder)
    print(f"tools/crashes: {number} servers killed, {kept} of them with --sync 0; {lines} lines done again")
