"""bin/stop: its end, and what it says. On a busy machine that says also that it waits, where else there would be nothing to say."""

import os
import re
import shutil
import subprocess

from common.repository import path_of_tool
from trial_parts.patience import PATIENCE

STOP = path_of_tool("stop")
REPLY, OTHERS = "bin/stop: waits for a reply of the server\n", "bin/stop: waits for the sessions of others to end\n"
ONE_OF_OTHERS = re.compile(r"bin/stop: process [0-9]+ has one: ")


def told(said):
    """What is said, but for what is waited for."""
    return "".join(it for it in said.splitlines(keepends=True) if it not in (REPLY, OTHERS) and not ONE_OF_OTHERS.match(it))


def stopped(path, **more):
    """What the tool says in the end, and its status."""
    ended = subprocess.run([STOP, path], capture_output=True, text=True, timeout=PATIENCE, **more)
    return told(ended.stderr), ended.returncode


class Waiting:
    """The tool, which waits for the sessions of others, and says so."""

    def __init__(self, path):
        self.process = subprocess.Popen([STOP, path], stderr=subprocess.PIPE, text=True)
        self.pid = self.process.pid
        while (line := self.process.stderr.readline()) == REPLY:
            pass
        assert line == OTHERS, line

    def names_this_process(self):
        """It says who has sessions, which is this process alone, if `ss` is there."""
        if shutil.which("ss"):
            line = self.process.stderr.readline()
            assert line.startswith(f"bin/stop: process {os.getpid()} has one: "), line

    def goes_on(self):
        return self.process.poll() is None

    def ended(self):
        """What it says in the end, and its status."""
        _, said = self.process.communicate(timeout=PATIENCE)
        return told(said), self.process.returncode
