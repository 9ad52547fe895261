"""Saves by a command, of a script that goes on and of a server."""

import contextlib
import functools
import json
import os
import subprocess

from inspect_trials.try_common import read
from trial_parts.patience import PATIENCE

from .program import Ended, same
from .try_served import ask, serve

SAVE = {"cmd": "save"}


@contextlib.contextmanager
def going_on(program, path, *options, **more):
    """A script on a file, and how it is asked a line and replies."""
    pipes = {"stdin": subprocess.PIPE, "stdout": subprocess.PIPE, "stderr": subprocess.PIPE}
    with subprocess.Popen([program.path, "script", "--image", path, *options], **pipes, **more) as script:

        def asked(line):
            script.stdin.write(line + b"\n")
            script.stdin.flush()
            return script.stdout.readline().removesuffix(b"\n")

        try:
            yield script, asked
        finally:
            script.kill()


def end_of(script):
    out, err = script.communicate(timeout=PATIENCE)
    return Ended(script.returncode, out, err)


def asks(asked):
    """How a script is asked a command, and replies."""
    return lambda command: json.loads(asked(json.dumps(command).encode()))


def saves(about, asked, path, text=None):
    """A save tells the bytes of the file, which has a text then."""
    reply = asked(SAVE)
    same(f"{about}: the bytes of the file", reply, {"ok": {"bytes": len(read(path))}})
    if text is not None:
        same(f"{about}: the file", read(path), text)


def is_not_saved(about, asked, path, text):
    """A save is refused, and the file stays."""
    same(f"{about}: a save", asked(SAVE), {"error": "WriteFault"})
    same(f"{about}: the file", read(path) if os.path.exists(path) else None, text)


def said(*reasons):
    """What standard error has of saves that were refused for these reasons."""
    return b"".join(b"actorimage: the image is not saved: %s\n" % it.encode() for it in reasons)


def in_a_session(program, path, talk, **more):
    """The end of a server with one session, in which somebody talks who is given how the server is asked."""
    return serve(program, path, lambda number, end, lines: talk(functools.partial(ask, end, lines)), **more)
