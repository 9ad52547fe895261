"""A session whose lines are timed."""

import subprocess

from common.compact import in_given_order
from trial_parts.patience import PATIENCE


class Session:
    """A session of the built program, and the processor time of each of its lines, in milliseconds, as Linux counts it."""

    def __init__(self, program, options=()):
        self.process = subprocess.Popen([program, "script", *options], stdin=subprocess.PIPE, stdout=subprocess.PIPE)
        self.count = f"/proc/{self.process.pid}/schedstat"

    def __enter__(self):
        return self

    def __exit__(self, *_):
        self.process.stdin.close()
        self.process.wait(timeout=PATIENCE)
        self.process.stdout.close()

    def spent(self):
        with open(self.count) as file:
            return int(file.read().split()[0]) / 1e6

    def ask(self, line):
        """The reply to a line, and what it took."""
        before = self.spent()
        self.process.stdin.write(line + b"\n")
        self.process.stdin.flush()
        reply = self.process.stdout.readline()
        return reply, self.spent() - before


def line_of(**keys):
    """The line of a command."""
    return in_given_order(keys).encode()


def define(name, slots=(), above="Object"):
    return line_of(cmd="define", name=name, slots=list(slots), super=above)


def method(name, source):
    return line_of(**{"class": name}, cmd="method", source=source)


def actor(name):
    return line_of(**{"class": name}, cmd="actor")


def post(selector, seq, to=0, args=(), sender=1):
    return line_of(actor=to, args=list(args), cmd="post", selector=selector, sender=sender, seq=seq)


RUN = line_of(cmd="run", quanta=1)
