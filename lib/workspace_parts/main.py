"""A workspace: Smalltalk is typed here, and a script of actorimage does it, or a server.

    bin/workspace [--image IMAGE] [--program PROGRAM] [--quantum N] [--capacity N] [FILE..]
    bin/workspace --socket PATH [--sender N] [FILE..]

The first starts a script with an image of its own. With --image it begins with the image of that file, if it is there, and keeps
it there when it ends; meanwhile no other workspace or server begins on it. The second connects to an image that a server keeps for
many: `./actorimage serve --socket PATH --workers 4` starts one.

The FILEs are loaded first. Then lines are read from standard input; at a terminal `:help` lists what can be typed. If
standard input is no terminal, each line is printed after `> ` before what it gives, and a line that begins with two spaces
or more goes on with the one before. The status is 1 then where something of a FILE was refused, or an answer was not as `:expect`
says; a class that a served image had already is not refused. It is 1 also where another process has changed the image's file meanwhile,
so that the image is beside it, as IMAGE.kept1.
"""

import argparse
import os
import signal
import sys

from common.repository import PROGRAM

from . import files, rescue, saving
from .breaks import Breaks
from .cutting import entries
from .images import OwnImage, ServedImage, WatchedImage
from .session import Session
from .wrong import Died, Ended, Wrong

# Numbers of senders go from 0 up to this one (docs/LIMITS.md).
SENDERS = 65_536
WELCOME = "A workspace of actorimage. :help lists what can be typed, :why says more of a fault, :quit ends."


def arguments():
    plain = argparse.RawDescriptionHelpFormatter
    parser = argparse.ArgumentParser(
        prog="bin/workspace", description=__doc__, formatter_class=plain, usage=argparse.SUPPRESS
    )
    parser.add_argument("files", metavar="FILE", nargs="*")
    parser.add_argument("--image", metavar="IMAGE", help="the file in which the image is kept")
    parser.add_argument("--program", help="the program (that of this repository)")
    parser.add_argument("--quantum", metavar="N", help="steps that an actor takes before the next one runs")
    parser.add_argument("--capacity", metavar="N", help="messages that the mailbox of a new actor holds")
    parser.add_argument("--socket", metavar="PATH", help="where a server listens")
    parser.add_argument("--sender", metavar="N", help="the sender of what is posted to a server, 0 to 65,535 (one for each process)")
    return parser.parse_args()


def given_of(*options):
    """Those that were given."""
    return [(name, value) for name, value in options if value is not None]


def image(given):
    """The image that the options tell of."""
    settings = given_of(("--quantum", given.quantum), ("--capacity", given.capacity))
    named = given_of(("--image", given.image), ("--program", given.program)) + settings
    if given.socket is None:
        if given.sender is not None:
            raise Ended("--sender is for a server; give it beside --socket PATH")
        if given.image == "":
            raise Ended("--image takes the name of a file")
        return OwnImage(given.program or PROGRAM, sum(settings, ()), given.image)
    if named:
        raise Ended(f"{named[0][0]} is for a script; a server at a socket has its own, so leave it out")
    kind = WatchedImage if sys.stdin.isatty() else ServedImage
    return kind(given.socket, sender(given.sender))


def sender(text):
    """The number of the sender: that of this process, if none was given, so that two workspaces seldom have the same."""
    if text is None:
        return os.getpid() % SENDERS
    if not text.isdecimal() or int(text[:9]) >= SENDERS:
        raise Ended("--sender takes a number from 0 to 65,535")
    return int(text)


def transcript(session):
    """Does the lines of standard input and prints each before what it gives."""
    for entry in entries(line.rstrip("\r\n") for line in sys.stdin):
        first, *more = entry.text.split("\n")
        with session.breaks:
            session.tell(["> " + first, *(("  " + line).rstrip() for line in more)])
            session.do(entry.text)
        if session.is_over:
            return
        if session.breaks.asked:
            sys.exit(130)


def talk(session):
    """Goes on once more where what was typed cannot be kept."""
    from . import terminal

    terminal.talk(session)
    if not saving.ends(session):
        terminal.talk(session)
        saving.end(session)


def load(session, name):
    """Whether all of a file was done."""
    try:
        with session.breaks:
            return files.load(session, name)
    except Wrong as wrong:
        raise Ended(wrong.sentence) from None


def work(session, names):
    is_terminal = sys.stdin.isatty()
    if is_terminal:
        session.say(WELCOME)
    saving.begin(session)
    session.news.tell_kept()
    are_whole = [load(session, name) for name in names]
    if names:
        session.tell_news()
    if is_terminal:
        talk(session)
    else:
        transcript(session)
        saving.end(session)
    is_good = is_terminal or all(are_whole) and session.is_as_expected
    if session.image.is_beside or not is_good:
        sys.exit(1)


def end_at_signals():
    """The program that was started ends with the workspace also where a signal ends it."""
    for number in (signal.SIGTERM, signal.SIGHUP):
        if signal.getsignal(number) == signal.SIG_DFL:
            signal.signal(number, lambda number, frame: sys.exit(128 + number))


def main():
    given = arguments()
    end_at_signals()
    sys.stdin.reconfigure(errors="replace")
    sys.stdout.reconfigure(errors="replace")
    try:
        session = Session(image(given), Breaks(), lambda line: print(line, flush=True))
        try:
            work(session, given.files)
        except Died as died:
            raise Ended(died.sentence + rescue.written(session)) from None
        finally:
            session.end()
    except Ended as ended:
        print(f"bin/workspace: {ended.sentence}", file=sys.stderr)
        sys.exit(1)
    except KeyboardInterrupt:
        print("\nbin/workspace: broken off", file=sys.stderr)
        sys.exit(130)
    except BrokenPipeError:
        os.dup2(os.open(os.devnull, os.O_WRONLY), sys.stdout.fileno())
