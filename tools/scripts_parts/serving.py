"""A server of one session and one worker, in which a turn ends."""

import os
import subprocess

from common.compact import compact
from trial_parts.client import Client, await_socket

from .commands import outcome
from .running import SECONDS, Wrong

PAUSE = 0.2


class Served:
    """`words` are those of the program, and of what it is run under."""

    def __init__(self, words, folder, options=(), env=None):
        path = os.path.join(folder, "socket")
        words = [*words, "serve", "--socket", path, "--workers", "1", "--sessions", "1", *options]
        self.process = subprocess.Popen(words, stdin=subprocess.DEVNULL, stdout=subprocess.PIPE, stderr=subprocess.PIPE, env=env)
        if not await_socket(self.process, path, SECONDS):
            raise Wrong(f"the server ends with status {self.process.returncode}")
        self.client = Client(path, SECONDS)

    def __enter__(self):
        return self

    def __exit__(self, *_):
        self.client.leave()
        self.process.kill()
        self.process.communicate()

    def ask(self, command, wanted):
        found = self.client.ask(command)
        if found != wanted:
            raise Wrong(f"the reply to {compact(command)} is {compact(found)}, not {compact(wanted)}")

    def wait(self, turn, wanted, of=0):
        """A turn ends so. It is asked for a few times in a second."""
        found = self.client.ending(outcome(turn, of), PAUSE)
        if found != wanted:
            raise Wrong(f"turn {turn} ends with {compact(found)}, not {compact(wanted)}")

    def end(self):
        """The session ends, and the server with it. The answer is what was written."""
        self.client.leave()
        said, _ = self.process.communicate(timeout=SECONDS)
        if self.process.returncode != 0:
            raise Wrong(f"the server ends with status {self.process.returncode}")
        return said
