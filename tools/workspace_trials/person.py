"""Somebody who types into a workspace on a served image, one of several at once."""

import queue
import subprocess
import sys
import threading

from trial_parts.patience import PATIENCE

from .try_common import WORKSPACE

# An entry is done once the next one begins. So two comments are typed behind each: the first is printed when the entry is done.
DONE, NEXT = '"entry {} is done"', '"next"'


class Person:
    """`lines` are those that the workspace has printed and nobody has read; `found` are those of the entry that goes on, and
    `echoed` those that were typed for it."""

    def __init__(self, folder, *options):
        pipes = {"stdin": subprocess.PIPE, "stdout": subprocess.PIPE, "stderr": subprocess.STDOUT}
        self.process = subprocess.Popen([sys.executable, WORKSPACE, *options], cwd=folder, text=True, **pipes)
        self.lines, self.found = queue.Queue(), []
        self.entries, self.echoed = 0, []
        threading.Thread(target=self.read, daemon=True).start()

    def read(self):
        for line in self.process.stdout:
            self.lines.put(line.rstrip())
        self.lines.put(None)

    def type(self, text):
        self.entries += 1
        self.found, self.echoed = [], text.split("\n")
        try:
            self.process.stdin.write(f"{text}\n\n{DONE.format(self.entries)}\n{NEXT}\n")
            self.process.stdin.flush()
        except BrokenPipeError:
            pass

    def gives(self, seconds=PATIENCE):
        """What the last entry gives, or None if it is not done after so many seconds. The workspace prints before that what was typed, and
        before the first entry what it begins with, which is counted as given by that."""
        done = "> " + DONE.format(self.entries)
        while True:
            try:
                line = self.lines.get(timeout=seconds)
            except queue.Empty:
                return None
            if line == done or line is None:
                begins = self.found.index("> " + self.echoed[0].rstrip()) if self.echoed else 0
                return self.found[:begins] + self.found[begins + len(self.echoed) :]
            if line != "> " + NEXT:
                self.found.append(line)

    def end(self):
        """The status, after the end of the input."""
        try:
            self.process.stdin.close()
        except BrokenPipeError:
            pass
        try:
            return self.process.wait(PATIENCE)
        finally:
            self.kill()

    def kill(self):
        self.process.kill()
        self.process.wait()
