"""Shows again and again how the actors and methods of a served image do, as top does of processes.

    bin/top SOCKET [METHOD..] [--actors A,B-C] [--seconds S] [--sites] [--once]
    bin/top --try PROGRAM

Of each actor, or of those that --actors names, there are its turns a second, all its turns since the last checkpoint, how many messages
wait, and what it runs or how its last turn ended. Those that are in one turn all the time come first, and then those that end most.
Above stand the turns of all, how many of them failed by which faults, and the newest faults with the time at which they were seen. An image
keeps its newest 64 faults; where more come between two frames, those are named and the others counted.

A METHOD is written as Counter.bump, or as Counter for all that the class has. Of each there are its sends a second, all its sends since
it was installed, the share of the newest ones that the sites answered, the lookup cache and the walk, and a letter for each call site:
. empty, m mono, p poly, M mega. --sites shows the sites below it.

At a terminal q ends it and s shows the sites or hides them. If standard output is none, frames are printed one after the other;
--once prints one. Each frame is of S seconds, 2 if none are given. What is asked is no item of the history, and changes nothing.
"""

import argparse
import os
import signal
import sys
import time

import actorimage
from common.own_trials import trials_of

from .frame import Piece, Shown, frame
from .named import NoMethods, given, named
from .screen import opened
from .sites import rows, sample
from .turns import Turns

WAITS = "there is no image: {}; it is tried again"
# Seconds after which a session is ended and another one begun.
LONGEST_SESSION = 60


class Watch:
    """Two samples: the one of the last frame, and the one of now. `words` are the methods and classes that are named."""

    def __init__(self, image, path, words, actors):
        self.image, self.path, self.words, self.actors = image, path, words, actors
        self.began = time.monotonic()
        self.begin()

    def begin(self):
        self.turns = Turns(self.actors)
        self.turns.sample(self.image, self.image.status())
        self.at, self.sites = time.monotonic(), sample(self.image, named(self.image, self.words))

    def again(self):
        """Connects again. The image may be another one, so nothing is known of before."""
        self.image.reconnect(0)
        self.began = time.monotonic()
        self.begin()

    def is_old(self):
        """Whether the session has gone on for long: a server that is to end waits for it."""
        return time.monotonic() - self.began > LONGEST_SESSION

    def shown(self, with_sites):
        """What was done since the last sample."""
        now, status, sites = time.monotonic(), self.image.status(), sample(self.image, named(self.image, self.words))
        actors, ends = self.turns.sample(self.image, status)
        found = list(rows(self.sites, sites, with_sites))
        seconds, self.at, self.sites = now - self.at, now, sites
        return Shown(self.path, time.strftime("%H:%M:%S"), seconds, status, actors, ends, found)


def arguments():
    plain = argparse.RawDescriptionHelpFormatter
    parser = argparse.ArgumentParser(prog="bin/top", description=__doc__, formatter_class=plain, usage=argparse.SUPPRESS)
    parser.add_argument("socket", metavar="SOCKET", nargs="?", help="where the server listens")
    parser.add_argument("methods", metavar="METHOD", nargs="*", help="a method, as Counter.bump, or a class")
    parser.add_argument("--actors", metavar="A,B-C", help="the actors that are shown")
    parser.add_argument("--seconds", metavar="S", type=float, default=2, help="seconds of each frame")
    parser.add_argument("--sites", action="store_true", help="show the call sites of each method")
    parser.add_argument("--once", action="store_true", help="print one frame")
    parser.add_argument("--try", dest="program", metavar="PROGRAM", help="run the tool's own trials")
    found = parser.parse_intermixed_args()
    if (found.socket is None) == (found.program is None):
        parser.error("give the path of a server's SOCKET, or --try alone")
    if not 0.05 <= found.seconds <= 3600:
        parser.error("--seconds takes 0.05 to 3600")
    return found


def numbers(text):
    """The numbers of actors, as in 0,4-9; None if none are given."""
    if text is None:
        return None
    found = set()
    for part in text.split(","):
        first, _, last = part.partition("-")
        if not first.isdecimal() or not (last or "0").isdecimal():
            raise NoMethods(f"--actors takes numbers, as in  0,4-9, and not {text}")
        found.update(range(int(first), int(last or first) + 1))
    return found


def watch(found):
    words, actors = [given(it) for it in found.methods], numbers(found.actors)
    with actorimage.connect(found.socket, operator=True) as image, opened(not found.once) as screen:
        go_on(Watch(image, found.socket, words, actors), screen, found)


def go_on(watched, screen, found):
    """Shows frames until it is enough."""
    with_sites, is_lost, ends = found.sites, False, time.monotonic() + found.seconds
    while True:
        key = screen.wait(max(0, ends - time.monotonic()))
        with_sites ^= key == "s"
        if key == "q":
            return
        if time.monotonic() < ends:
            continue
        try:
            if is_lost or watched.is_old() and not found.once:
                watched.again()
                is_lost = False
            else:
                screen.show(frame(watched.shown(with_sites), *screen.size()))
        except (actorimage.Ended, actorimage.TooMany) as error:
            if not screen.keys:
                raise
            is_lost = True
            screen.show([[Piece(WAITS.format(error))]])
        if found.once:
            return
        ends = time.monotonic() + found.seconds


def main():
    found = arguments()
    # The terminal is as it was also where a signal ends the tool.
    for number in (signal.SIGTERM, signal.SIGHUP):
        signal.signal(number, lambda number, frame: sys.exit(128 + number))
    try:
        if found.program:
            sys.exit(trials_of("top").try_all(os.path.abspath(found.program)))
        watch(found)
    except (actorimage.ActorImageError, NoMethods) as error:
        print(f"bin/top: {error}", file=sys.stderr)
        sys.exit(1)
    except KeyboardInterrupt:
        sys.exit(130)
    except BrokenPipeError:
        os.dup2(os.open(os.devnull, os.O_WRONLY), sys.stdout.fileno())
