"""Trials: which methods are named, what is counted between two samples, and how frames look."""

import contextlib
import dataclasses
import subprocess
import sys
import tempfile
import time
from collections import Counter

import actorimage
from actorimage import Actor, Standing, Status
from common.repository import path_of_tool
from top_parts.frame import Shown, as_coloured, as_text, frame, short
from top_parts.main import Watch, numbers
from top_parts.named import Method, NoMethods, given, named
from top_parts.sites import Found, Row
from top_parts.turns import BEFORE, Acting, Ends, Turns
from trial_parts.patience import PATIENCE, until
from workspace_trials.pretend import Terminal
from workspace_trials.serving import Server
from workspace_trials.try_common import same

HERE = path_of_tool("top")
COUNTER = "bump count isNil ifTrue: [count := 0]. count := count + 1. ^count"


def refused(call, *arguments):
    try:
        call(*arguments)
    except NoMethods as error:
        return str(error)
    raise AssertionError(f"{arguments} name something")


def methods_are_named(program):
    """By words, one by one or by their class, as the image has them then."""
    for word in ("Counter.at:put:", "Counter>>at:put:", "Counter >> at:put:", "Counter at:put:"):
        same(given(word), Method("Counter", "at:put:"))
    same((given("Object.~="), given("Counter")), (Method("Object", "~="), "Counter"))
    said = "bump is no method; write a class, or a class and a selector, as in  Counter  or  Counter.bump"
    same(refused(given, "bump"), said)
    same(numbers("0,4-6,5"), {0, 4, 5, 6})
    same(refused(numbers, "a"), "--actors takes numbers, as in  0,4-9, and not a")
    with actorimage.script(program) as image:
        image.define("A")
        image.install("A", "m ^1")
        image.install("A", "n ^1")
        image.install("True", "no ^false")
        words = [Method("A", "n"), "A", "True", "Gone", Method("Gone", "m")]
        wanted = [Method("A", "n"), Method("A", "m"), Method("True", "no"), Method("Gone", "m")]
        same(named(image, words), wanted)
        image.remove("A", "m")
        same(named(image, ["A"]), [Method("A", "n")])


def post(image, number, *messages):
    """Posts messages, as many at once as a mailbox holds, and waits until their turns have ended, however they do."""
    sender = image.sender(number)
    for first in range(0, len(messages), 64):
        turns = {it.actor: it for it in sender.post_all(messages[first : first + 64])}
        for last in turns.values():
            with contextlib.suppress(actorimage.Fault):
                image.wait(last)


def sends_are_counted(program):
    """Of two samples, what lies between them; of a method that was installed again, all. With two workers a site's state could be that
    of the one that has seen less."""
    with tempfile.TemporaryDirectory() as folder, Server(program, folder, "--workers", "1") as server:
        with actorimage.connect(server.path) as image:
            image.define("Counter", slots=["count"])
            image.install("Counter", COUNTER)
            image.install("Counter", "quiet ^1")
            counter = image.new_actor("Counter")
            names = [Method("Counter", it) for it in ("quiet", "bump", "none")] + [Method("Gone", "m")]
            watched = Watch(image, "it", names, None)
            post(image, 1, *[(counter, "bump")] * 3)
            first = watched.shown(with_sites=True)
            same([(row.name, row.why, row.states) for row in first.rows][0], ("Counter >> bump", None, ["poly", "mono"]))
            same([row.now for row in first.rows[:3]], [row.all for row in first.rows[:3]])
            same([(it.name, it.now.sends) for it in first.rows[:3]], [("Counter >> bump", 6), ("  isNil", 3), ("  +", 3)])
            others = [("Counter >> none", "NoSuchMethod", []), ("Counter >> quiet", None, []), ("Gone >> m", "UnknownClass", [])]
            same([(it.name, it.why, it.states) for it in first.rows[3:]], others)
            post(image, 1, *[(counter, "bump")] * 5)
            again = watched.shown(with_sites=False)
            same((again.rows[0].all.sends, again.rows[0].now.sends, len(again.rows)), (16, 10, 4))
            image.install("Counter", COUNTER)
            post(image, 1, (counter, "bump"))
            same([(row.all.sends, row.now.sends) for row in watched.shown(False).rows[:1]], [(2, 2)])
            watched.began -= 100
            same(watched.is_old(), True)
            watched.again()
            same((watched.is_old(), [(row.all.sends, row.now.sends) for row in watched.shown(False).rows[:1]]), (False, [(2, 0)]))


def sampled(turns, image, **changes):
    """How many turns of each actor ended, and what is told of all. Lines on faults begin with a time."""
    actors, ends = turns.sample(image, dataclasses.replace(image.status(), **changes))
    newest = [line[len(BEFORE) + 2 :].replace("notUnderstood in turn ", "") for line in ends.newest]
    return {it.standing.actor.number: it.turns for it in actors}, (ends.turns, ends.failed, dict(ends.faults), newest)


def turns_are_counted(program):
    """Turns and faults between two samples, also of actors that are made meanwhile; where over 64 failed, the names are those of the newest."""
    with tempfile.TemporaryDirectory() as folder, Server(program, folder, "--workers", "2") as server:
        with actorimage.connect(server.path) as image:
            image.define("Counter", slots=["count"])
            image.install("Counter", COUNTER)
            every, some = Turns(None), Turns({1, 9})
            nothing = 0, 0, {}, []
            same([sampled(it, image) for it in (every, some)], [({}, nothing)] * 2)
            one = image.new_actor("Counter")
            same([sampled(it, image) for it in (every, some)], [({0: 0}, nothing), ({}, nothing)])
            post(image, 1, *[(one, "bump")] * 3, (one, "foo"), (one, "bump"))
            same(sampled(every, image), ({0: 5}, (5, 1, {"notUnderstood": 1}, ["4 of actor 0, Counter"])))
            two = image.new_actor("Counter")
            post(image, 1, *[(two, "foo"), (two, "bump")] * 100)
            newest = [f"{it} of actor 1, Counter" for it in (199, 197, 195, 193)]
            same(sampled(some, image), ({1: 200}, (200, 64, {"notUnderstood": 64}, newest)))
            same(sampled(every, image), ({0: 0, 1: 200}, (200, 100, {"notUnderstood": 64}, newest)))
            post(image, 1, *[(one, "bump")] * 2, *[(two, "foo"), (two, "bump")] * 100)
            newest = [f"{it} of actor 1, Counter" for it in (399, 397, 395, 393)]
            same(sampled(every, image), ({0: 2, 1: 200}, (202, 100, {"notUnderstood": 64}, newest)))
            image.checkpoint()
            post(image, 1, (one, "bump"), (one, "foo"))
            newest = ["2 of actor 0, Counter", *newest[:3]]
            same(sampled(every, image), ({0: 2, 1: 0}, (2, 1, {"notUnderstood": 1}, newest)))
            list(image.ask_all([{"cmd": "actor", "class": "Counter"}] * 5000))
            same(sampled(every, image), (dict.fromkeys(range(5002), 0), (0, 0, {}, newest)))
            _, before = Turns({0}).sample(image, image.status())
            same((before.failed, before.newest), (0, [f"{BEFORE}  notUnderstood in turn 2 of actor 0, Counter"]))


def faults_are_asked_for(program):
    """Of an image that keeps no faults: of each actor those of the newest 64 turns."""
    with tempfile.TemporaryDirectory() as folder, Server(program, folder, "--workers", "2") as server:
        with actorimage.connect(server.path) as image:
            image.define("A")
            one, turns = image.new_actor("A"), Turns(None)
            same(sampled(turns, image, faults=None), ({0: 0}, (0, 0, {}, [])))
            post(image, 1, *[(one, "foo"), (one, "isNil")] * 50)
            newest = [f"{it} of actor 0, A" for it in (99, 97, 95, 93)]
            same(sampled(turns, image, faults=None), ({0: 100}, (100, 32, {"notUnderstood": 32}, newest)))


def actors_are_told(program):
    """What an actor runs, or how its last turn ended; and which is in one turn all the time."""
    with tempfile.TemporaryDirectory() as folder, Server(program, folder, "--workers", "2") as server:
        with actorimage.connect(server.path) as image:
            image.define("Job")
            image.install("Job", "goes ^true")
            image.install("Job", "work [self goes] whileTrue: [nil]. ^7")
            jobs = [image.new_actor("Job") for _ in range(4)]
            sender = image.sender(1)
            for _ in range(2):
                sender.post(jobs[1], "work")
            post(image, 2, (jobs[2], "foo"), (jobs[3], "goes"))
            image.close(jobs[3])
            watched = Watch(image, "it", [], None)
            until(lambda: watched.shown(False).actors[1].standing.running, "the job does not run")
            actors = watched.shown(False).actors
            same([it.doing() for it in actors if it.standing.actor != jobs[1]], ["none yet", "fault notUnderstood", "answered, closed"])
            same([it.is_long for it in actors], [False, True, False, False])
            same((actors[1].doing() in ("runs Job >> work", "runs Job >> goes"), actors[1].standing.waiting), (True, 1))
            image.install("Job", "goes ^false")
            until(lambda: watched.shown(False).actors[1].doing() == "answered", "the job does not end")


STATUS = Status(3, 9, 40, 2008, "7-0", 12_345, 1_000_000, 60, 5, 2, 90, 4, 1_300)
SHOP = ("Shop", 9, 7, True, "frames", None, None, ("Shop", "sell:"))
ACTORS = [
    Acting(Standing(Actor(0), "Counter", 1_700, 1_700, True, "fault", None, "overflow", None), 1_234),
    Acting(Standing(Actor(1), *SHOP)),
    Acting(Standing(Actor(12), *SHOP), 0, is_long=True),
    Acting(Standing(Actor(13), "Counter", 0, 0, False, "fresh", None, None, None)),
]
ROWS = [
    Row("Shop >> sell:", Found(4_488_040), Found(3000, 2997, 2, 1), ["mono", "poly", "mega", "empty"]),
    Row("  super area", Found(12), Found(), ["mono"]),
    Row("Shop >> quiet"),
    Row("Gone >> m", why="UnknownClass"),
]
FRAME = """\
shop.socket: 1.5 seconds up to 14:03:21
history: 12,345 of 1,000,000 items; edits left: 2,008; 2 sessions
turns: 823 a second, of 4 actors; faults: overflow 62, zeroDivide 2 in the newest 64 of 1,200; 1,300 since the last checkpoint
14:03:20  overflow in turn 7 of actor 0, Counter
before    zeroDivide in turn 6 of actor 1, Shop

ACTOR  CLASS     TURNS/S   TURNS  WAITS  LAST TURN
   12  Shop            0       6      2  runs Shop >> sell:
    0  Counter       823   1.70k      0  fault overflow
    1  Shop            0       6      2  runs Shop >> sell:
   13  Counter         0       0      0  none yet, closed

METHOD         SENDS/S   SENDS   SITE  CACHE   WALK  SITES
Shop >> sell:    2.00k   4.49M  99.9%   0.1%   0.0%  mpM.
  super area         0      12      -      -      -  m
Shop >> quiet  sends nothing
Gone >> m      UnknownClass
SITES, in the order of the code: . empty  m mono  p poly  M mega"""


def frames_look_so(program):
    """A frame, narrow and low ones, and the colours."""
    newest = ["14:03:20  overflow in turn 7 of actor 0, Counter", "before    zeroDivide in turn 6 of actor 1, Shop"]
    ends = Ends(1234, 1200, Counter({"overflow": 62, "zeroDivide": 2}), newest)
    shown = Shown("shop.socket", "14:03:21", 1.5, STATUS, ACTORS, ends, ROWS)
    same("\n".join(as_text(it) for it in frame(shown, 130)), FRAME)
    same([len(as_text(it)) <= 40 for it in frame(shown, 40)], [True] * 18)
    low, lines = [as_text(it) for it in frame(shown, 130, 15)], FRAME.split("\n")
    same((len(low), low[6:10]), (15, [lines[6], lines[7], lines[8], "and 2 more that do less"]))
    same(low[11:14], [lines[12], lines[13], "and 3 more that send less"])
    coloured = [as_coloured(it) for it in frame(shown, 130)]
    same(coloured[13].endswith("  \x1b[32mm\x1b[0m\x1b[33mp\x1b[0m\x1b[31mM\x1b[0m\x1b[90m.\x1b[0m"), True)
    same("\x1b[31mUnknownClass\x1b[0m" in coloured[16] and "\x1b[31mfaults: overflow" in coloured[2], True)
    same("\x1b[31mfault overflow\x1b[0m" in coloured[8], True)
    none = Shown("it", "x", 1, dataclasses.replace(STATUS, faults=0), [], Ends(), [])
    same([as_text(it) for it in frame(none, 80)][2:], ["turns: 0 a second, of 0 actors; faults: none", "", "no actors"])
    many = Shown("it", "x", 1, dataclasses.replace(STATUS, faults=None), [], Ends(), [Row("A >> m", Found(1), Found(1), ["mono"] * 1024)])
    same(as_text(frame(many, 80)[7]), "A >> m              1       1   0.0%   0.0%   0.0%  " + "m" * 23 + "+1001")
    same([short(it) for it in (0, 0.5, 7, 12.6, 999, 1000, 12_345, 999_499, 999_500, 4_488_040, 10**13)],
         ["0", "0.5", "7", "13", "999", "1.00k", "12.3k", "999k", "1.00M", "4.49M", "10.0T"])


def run(*words, **more):
    return subprocess.run([sys.executable, HERE, *words], capture_output=True, text=True, timeout=PATIENCE, **more)


def commands_are_taken(program):
    """One frame, no server, what is no method, and a reader that leaves."""
    with tempfile.TemporaryDirectory() as folder:
        none, said = run("socket", "--once", cwd=folder), "bin/top: no server listens at socket (No such file or directory)\n"
        same((none.stdout, none.stderr, none.returncode), ("", said, 1))
        with Server(program, folder, "--workers", "1"):
            once = run("socket", "--once", "--seconds", "0.1", "Object.foo", cwd=folder)
            lines = once.stdout.splitlines()
            same((len(lines), lines[2], lines[4], lines[7], once.returncode),
                 (9, "turns: 0 a second, of 0 actors; faults: none", "no actors", "Object >> foo  NoSuchMethod", 0))
            same(run("socket", "foo", cwd=folder).returncode, 1)
            same(run(cwd=folder).returncode, 2)
            piped = f"{sys.executable} {HERE} socket --seconds 0.05 | head -n 3"
            left = subprocess.run(piped, shell=True, cwd=folder, capture_output=True, text=True, timeout=PATIENCE)
            same((len(left.stdout.splitlines()), left.stderr), (3, ""))


def screens_are_shown(program):
    """At a terminal: keys, and a server that ends and is there again."""
    with tempfile.TemporaryDirectory() as folder, Server(program, folder, "--workers", "1") as server:
        terminal = Terminal([HERE, "socket", "Job.work", "--seconds", "0.1"], folder, folder)
        try:
            terminal.see("Job >> work   UnknownClass")
            with actorimage.connect(server.path) as image:
                image.define("Job")
                image.install("Job", "work ^self isNil")
                post(image, 1, (image.new_actor("Job"), "work"))
                terminal.see("Job >> work ")
                terminal.type("s")
                terminal.see("  isNil ")
            server.end()
            terminal.see("there is no image: ")
            with Server(program, folder, "--workers", "1"):
                terminal.see("Job >> work   UnknownClass")
                terminal.type("q")
                same(terminal.process.wait(PATIENCE), 0)
        finally:
            terminal.kill()


TRIALS = (
    methods_are_named, frames_look_so, sends_are_counted, turns_are_counted, faults_are_asked_for, actors_are_told, commands_are_taken,
    screens_are_shown,
)


def try_all(program):
    """The status."""
    began = time.monotonic()
    for trial in TRIALS:
        trial(program)
    print(f"bin/top: {len(TRIALS)} trials in {time.monotonic() - began:.0f} seconds; as it should be")
    return 0
