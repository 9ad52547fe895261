"""A pretended terminal: the workspace runs in it as if a person typed."""

import os
import pty
import re
import select
import signal
import subprocess
import sys
import time

from trial_parts.patience import PATIENCE, until

# What moves the cursor or sets a mode says nothing to a reader.
CONTROL = re.compile(r"\x1b\[\?2004l\r?|\x1b\[[?0-9;]*[A-Za-z]")
# Whether the terminal is to say what is pasted, and how it says it.
PASTES = re.compile(r"\x1b\[\?2004([hl])")
PASTED = "\x1b[200~{}\x1b[201~"


class Terminal:
    def __init__(self, command, home, cwd=None):
        self.ours, theirs = pty.openpty()
        environment = {**os.environ, "HOME": home, "TERM": "xterm"}
        shown = {"stdin": theirs, "stdout": theirs, "stderr": theirs}
        self.process = subprocess.Popen(
            [sys.executable, *command], **shown, env=environment, cwd=cwd, preexec_fn=own_terminal
        )
        os.close(theirs)
        self.shown = ""
        self.says_pastes = False

    def type(self, text):
        os.write(self.ours, text.encode())

    def paste(self, text):
        """Pastes a text as a terminal does, and types a newline behind it."""
        self.type((PASTED.format(text) if self.says_pastes else text) + "\n")

    def interrupt(self):
        """Ctrl-C. While an entry is done it may come at any time; else what comes next has to be awaited."""
        self.type("\x03")

    def signal(self, number):
        """Sends a signal to the workspace."""
        self.be_awaited()
        self.process.send_signal(number)

    def be_awaited(self):
        """Until what was shown last is over and something is awaited: a signal just before would wait with it."""
        until(self.sleeps, "the workspace awaits nothing")

    def sleeps(self):
        """Whether the workspace sleeps, and has not run for a while."""
        before = self.ran()
        time.sleep(0.2)
        return before is not None and self.ran() == before

    def ran(self):
        """How often the workspace has gone to sleep and was interrupted, while it sleeps; None while it runs or would run."""
        with open(f"/proc/{self.process.pid}/status", encoding="utf-8") as file:
            told = dict(line.split(":", 1) for line in file)
        counts = told["voluntary_ctxt_switches"], told["nonvoluntary_ctxt_switches"]
        return counts if told["State"].split()[0] == "S" else None

    def see(self, wanted, seconds=PATIENCE):
        """What is shown up to and with a text, which is awaited."""
        end = time.monotonic() + seconds
        while wanted not in self.shown:
            ready, _, _ = select.select([self.ours], [], [], max(0, end - time.monotonic()))
            if not ready:
                raise AssertionError(f"{wanted!r} is not shown, but {self.shown!r}")
            self.shown += self.read()
        before, _, self.shown = self.shown.partition(wanted)
        return before + wanted

    def read(self):
        try:
            data = os.read(self.ours, 1 << 16)
        except OSError:
            data = b""
        if not data:
            raise AssertionError(f"the workspace has ended after {self.shown!r}")
        text = data.decode(errors="replace")
        for mode in PASTES.findall(text):
            self.says_pastes = mode == "h"
        return CONTROL.sub("", text).replace("\r\n", "\n")

    def ask(self, line):
        """What a typed line gives, up to the next prompt."""
        self.type(line + "\n")
        self.see(line[-40:] + "\n")
        return self.see("> ")[: -len("> ")]

    def end(self):
        """The status, after the end of the input."""
        self.type("\x04")
        try:
            return self.process.wait(PATIENCE)
        finally:
            os.close(self.ours)

    def kill(self):
        self.process.send_signal(signal.SIGKILL)
        self.process.wait()


def own_terminal():
    """The terminal's Ctrl-C reaches the workspace, and so does its end, also where the trials run under nohup or behind a shell."""
    import fcntl
    import termios

    os.setsid()
    fcntl.ioctl(0, termios.TIOCSCTTY, 0)
    for number in (signal.SIGHUP, signal.SIGINT):
        signal.signal(number, signal.SIG_DFL)
