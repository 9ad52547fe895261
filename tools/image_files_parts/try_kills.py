"""A trial on a server that is killed while it saves: the file is whole each time, and has the image of a save that was answered, or that
was going on."""

import contextlib
import json
import os
import random
import threading
import time

from inspect_trials.try_common import read
from inspect_trials.written import Written, file_text
from trial_parts.patience import PATIENCE

from .program import same
from .saving import SAVE
from .try_held import FIRST, alone
from .try_served import ask, begun, connected

# How often a server is killed, where `--kills` does not say it.
KILLS = 10
SEED = 20261128
# A server is killed so many seconds after its first save was answered, at most.
LONGEST = 0.3
CLASS = json.loads(FIRST)
ACTOR = {"class": CLASS["name"], "cmd": "actor"}


class Saver:
    """A client that makes an actor and saves, time and again. `began` are the actors of the image whose save was asked for last, `answered`
    those of the last save that was replied to, and `count` all that there are."""

    def __init__(self, count):
        self.count = self.began = self.answered = count
        self.is_going = threading.Event()

    def run(self, server, path):
        with contextlib.suppress(OSError, ValueError), connected(server, path) as end, end.makefile("rb") as lines:
            while True:
                same("an actor", ask(end, lines, ACTOR), {"ok": {"actor": self.count}})
                self.count += 1
                self.began = self.count
                same("a save", list(ask(end, lines, SAVE)), ["ok"])
                self.answered = self.began
                self.is_going.set()


def text_with(count):
    """The file of an image with so many actors."""
    image = Written()
    image.reply(CLASS)
    for _ in range(count):
        image.reply(ACTOR)
    return file_text(image.file()).encode()


def killed_while_saving(program):
    """The next server goes on from the file, and takes what is left beside it."""
    rng, path, count, cut = random.Random(SEED), program.at("file"), 0, 0
    same("a class", program.script(path, FIRST).status, 0)
    for number in range(KILLS):
        saver = Saver(count)
        with begun(program, path, name=f"socket{number}") as server:
            thread = threading.Thread(target=saver.run, args=(server, program.at(f"socket{number}")))
            thread.start()
            same(f"kill {number + 1}: a save is answered", saver.is_going.wait(PATIENCE), True)
            time.sleep(rng.uniform(0, LONGEST))
            server.kill()
            server.wait()
            thread.join()
        os.remove(program.at(f"socket{number}"))
        data = read(path)
        count = next((it for it in (saver.answered, saver.began) if text_with(it) == data), None)
        same(f"kill {number + 1}: the image of the save that was answered last, or of the next", count is not None, True)
        same(f"kill {number + 1}: a check", json.loads(program.check(path).out)["ok"]["actors"], count)
        cut += os.path.exists(path + ".new") and os.path.getsize(path + ".new") > 0
    same("a script afterwards", program.script(path).status, 0)
    same("what it leaves", read(path), text_with(count))
    alone(program, "file")
    return f"{KILLS} kills, {cut} of them with a part of a text beside the file, {count} actors"


TRIALS = (killed_while_saving,)
