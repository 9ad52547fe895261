"""Trials on when the file is read and when it is written: at once, before a session begins and after it has ended well."""

import os
import select
import subprocess

from inspect_trials.try_common import bad_files, good_files, read
from trial_parts.patience import PATIENCE

from .program import Different, same

RUN = b'{"cmd":"run"}\n'
RAN = b'{"ok":{"quanta":1,"steps":7}}\n'


def begun(program, path):
    """A session on a file, which has not ended."""
    return subprocess.Popen(
        [program.path, "script", "--image", path], stdin=subprocess.PIPE, stdout=subprocess.PIPE, stderr=subprocess.PIPE
    )


def answered(session):
    """The reply to a line."""
    session.stdin.write(RUN)
    session.stdin.flush()
    ready, _, _ = select.select([session.stdout], [], [], PATIENCE)
    if not ready:
        raise Different("a line is not answered")
    return session.stdout.readline()


def killed(program):
    """A session that goes on, or is killed, leaves the file as it was; one that ends writes it."""
    data = read(good_files()["message-waits"])
    for is_killed in (True, False):
        path = program.put("file", data)
        with begun(program, path) as session:
            same("reply", answered(session), RAN)
            same("the file in a session", read(path), data)
            if is_killed:
                session.kill()
                session.wait()
            session.communicate(timeout=PATIENCE)
        same("files in the folder", os.listdir(program.folder), ["file"])
        same("is the file as it was", read(path) == data, is_killed)
    return "2 sessions"


def unread(program):
    """A malformed file is refused before a line is read."""
    path = program.put("file", read(bad_files()[0]))
    with begun(program, path) as session:
        try:
            status = session.wait(timeout=PATIENCE)
        except subprocess.TimeoutExpired:
            session.kill()
            raise Different("a malformed file waits for lines") from None
        same("status", status, 1)
    return "1 session"


TRIALS = (killed, unread)
