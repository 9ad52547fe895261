"""Trials of images that are kept in a file: what a workspace knows of one, and how the file stands at each end."""

import contextlib
import fcntl
import glob
import json
import os
import shutil
import signal
import subprocess
import sys
import tempfile

from common.repository import TOP, path_of_tool
from trial_parts.patience import PATIENCE, until
from workspace_parts.breaks import Breaks
from workspace_parts.images import OwnImage
from workspace_parts.session import Session

from .pretend import Terminal
from .try_common import COUNTER, WORKSPACE, piped, same

NAME = "job.image"
OPTIONS = ("--image", NAME)
NEW = f"{NAME} is new, and is written when the workspace ends"
KID = ["Maker : Object", "Maker >> kid  ^Maker newActor", "Maker >> again  ^thisActor post: #again", "m := Maker actor", "m kid"]
EDITS = [*COUNTER, "Counter >> bump  count := count + 2. ^count", "Stepper : Counter | by |", "Stepper >> by: n\n  by := n"]
ALL = [*EDITS, "True >> yes  ^7", "Stepper >> old  ^1", "Stepper removeSelector: #old", "c := Stepper actor", "c start. c by: 4"]


def typed(program, folder, lines, *options):
    """The lines that a workspace on the image prints, without what was typed, what it says otherwise, and its status."""
    ended = piped(program, lines, *OPTIONS, *options, cwd=folder)
    printed = [line for line in ended.stdout.decode().splitlines() if not line.startswith("> ")]
    return printed, ended.stderr.decode(), ended.returncode


def content(folder, name=NAME):
    with open(os.path.join(folder, name), "rb") as file:
        return file.read()


def goes_on(program):
    """A second workspace goes on where the first one ended, and knows what is there."""
    with tempfile.TemporaryDirectory() as folder:
        lines = [*COUNTER, "c := Counter actor", "c start. c bump. c bump", ":post c bump", ":close c"]
        same(typed(program, folder, lines)[0], [NEW, "class Counter, version 1", "actor 0", "2", "turn 4 of actor 0 waits"])
        lines = [":classes", ":methods", ":actors", "c := actor 0", ":turn 0 of c", ":turn 1 of c", ":run", "c bump", ":names"]
        wanted = f"""{NAME}: 1 class, 2 methods, 1 actor, 1 turn to run
Counter : Object | count |
Counter >> start  count := 0
Counter >> bump  count := count + 1. ^count
actor  name  class    turn        waiting
    0        Counter  answered 2        1  closed
actor 0
turn 0 of actor 0 answers 2
Pending: turn 1 of actor 0 has not ended, or not begun; :run goes on with it
1 quantum, 8 steps
turn 1 of actor 0 answers 3
Closed: the mailbox of actor 0 is closed for ever; make a new actor
c = actor 0"""
        same(typed(program, folder, lines), (wanted.split("\n"), "", 0))
        checked = subprocess.run([program, "check", NAME], cwd=folder, capture_output=True, timeout=PATIENCE).stdout
        same(json.loads(checked), {"ok": {"actors": 1, "classes": 9, "edits": 3}})


def as_typed(program):
    """What is known of a file is what is known where all is typed in; actors that methods made have their class besides."""
    with tempfile.TemporaryDirectory() as folder:
        sessions = [Session(OwnImage(program, (), os.path.join(folder, NAME)), Breaks(), lambda line: None)]
        for line in [*ALL, *KID, "m again", ":close actor 2", ":post c bump", ":post m again"]:
            sessions[0].do(line)
        sessions[0].close()
        sessions.append(Session(OwnImage(program, (), os.path.join(folder, NAME)), Breaks(), lambda line: None))
        one, two = sessions
        same(two.known.classes, one.known.classes)
        same(one.known.actors.pop(2).class_name, None)
        same(two.known.actors.pop(2).class_name, "Maker")
        same(two.known.actors, one.known.actors)
        same((two.turns.last, len(two.turns.waiting)), (one.turns.last, 2))
        same(list(two.turns.selectors.values()), ["bump", "again"])
        two.do("c := actor 0")
        same(two.turns.post(0, "bump", []).number, 2)
        two.end()


def middle_of_turn(program):
    """A turn that goes on is turn 0, and its end is told as that of a message that waits."""
    with tempfile.TemporaryDirectory() as folder:
        shutil.copy(os.path.join(TOP, "examples", "job.image.json"), os.path.join(folder, NAME))
        lines = ["j := actor 0", ":turn 0 of j", ":step", ":run", "j work: 2", "j work: #a", ":why", ":turn 0 of j"]
        wanted = f"""{NAME}: 1 class, 2 methods, 1 actor, 2 turns to run
actor 0
Pending: turn 0 of actor 0 has not ended, or not begun; :run goes on with it
1 quantum, 67 steps
turn 0 of actor 0 answers 3002
1 quantum, 69 steps
turn 1 of actor 0 answers 3000
2000
fault badArgument in turn 3 of actor 0
0 < #a: badArgument, a kernel method got an argument or a receiver that it cannot take; look at what is added, compared or posted there
Job >> work: #a    a Job, paid 0; day 0
  work: days | day | paid := 0. day := 0. [day < days] whileTrue: [day := da..
                                               ^
turn 0 of actor 0 answers 3002"""
        same(typed(program, folder, lines), (wanted.split("\n"), "", 0))


def refused(program):
    """A file that breaks a rule of the format is told of with its place, and stays."""
    for path in glob.glob(os.path.join(TOP, "tests", "inspect", "*.refusal")):
        with tempfile.TemporaryDirectory() as folder, open(path, encoding="utf-8") as told:
            shutil.copy(path.removesuffix(".refusal"), os.path.join(folder, NAME))
            before = content(folder)
            wanted = f"bin/workspace: {NAME} is refused, and stays as it is; place {told.read()}"
            same(typed(program, folder, ["C : Object"]), ([], wanted, 1))
            same((content(folder), os.listdir(folder)), (before, [NAME]))


def no_place(program):
    """Where no file can be is told before anything is typed."""
    with tempfile.TemporaryDirectory() as folder:
        os.mkdir(os.path.join(folder, NAME))
        same(typed(program, folder, []), ([], f"bin/workspace: {NAME} cannot be read (Is a directory)\n", 1))
        ended = piped(program, [], "--image", "nofolder/" + NAME, cwd=folder)
        wanted = f"bin/workspace: nofolder/{NAME} cannot be written (No such file or directory)\n"
        same((ended.stdout, ended.stderr.decode(), ended.returncode), (b"", wanted, 1))


def linked(program):
    """Behind a link the image is kept where the link leads."""
    with tempfile.TemporaryDirectory() as folder:
        os.mkdir(os.path.join(folder, "kept"))
        for name in (NAME, "two.image"):
            os.symlink("kept/" + name, os.path.join(folder, name))
        typed(program, folder, ["C : Object", ":save two.image"])
        same(sorted(os.listdir(os.path.join(folder, "kept"))), [NAME, "two.image"])
        for name in (NAME, "two.image"):
            same(os.readlink(os.path.join(folder, name)), "kept/" + name)
        same(typed(program, folder, [":classes"])[0][1:], ["C : Object"])


def at_signals(program):
    """A signal that ends the workspace does not end its image: the program's session ends well. A kill leaves the file to the program
    in time, which several show more surely than one."""
    for number, status in ((signal.SIGTERM, 143), (signal.SIGHUP, 129), *[(signal.SIGKILL, -9)] * 5):
        with tempfile.TemporaryDirectory() as folder:
            terminal = Terminal([WORKSPACE, "--program", program, *OPTIONS], folder, folder)
            terminal.see("\n> ")
            same(terminal.ask("C : Object"), "class C, version 1\n")
            terminal.signal(number)
            same(terminal.process.wait(PATIENCE), status)
            until(lambda: is_let_go(os.path.join(folder, NAME)), "the image is not saved")
            same(typed(program, folder, [":classes"])[0][1:], ["C : Object"])


def is_let_go(path):
    """Whether a file is there that no program has."""
    with contextlib.suppress(FileNotFoundError, BlockingIOError), open(path, "rb") as file:
        fcntl.flock(file, fcntl.LOCK_EX | fcntl.LOCK_NB)
        return True
    return False


def program_is_killed(program):
    """A program that is killed leaves the file as it was."""
    with tempfile.TemporaryDirectory() as folder:
        typed(program, folder, ["C : Object"])
        before = content(folder)
        session = Session(OwnImage(program, (), os.path.join(folder, NAME)), Breaks(), lambda line: None)
        session.do("D : Object")
        session.log.connection.process.kill()
        same((session.close(), content(folder)), (False, before))


def broken_off(program):
    """Ctrl-C ends a workspace that reads a pipe, and its image is kept."""
    with tempfile.TemporaryDirectory() as folder:
        pipes = {"stdin": subprocess.PIPE, "stdout": subprocess.PIPE, "stderr": subprocess.PIPE}
        command = [sys.executable, WORKSPACE, "--program", program, *OPTIONS]
        with subprocess.Popen(command, cwd=folder, text=True, **pipes) as process:
            process.stdin.write("C : Object\nC >> m  [true] whileTrue: [nil]\nc := C actor\nc m\n:quit\n")
            process.stdin.flush()
            while process.stdout.readline() != "> c m\n":
                pass
            process.send_signal(signal.SIGINT)
            same((process.communicate(timeout=PATIENCE)[1], process.returncode), ("", 130))
        same(typed(program, folder, [":actors"])[0][0].partition(", 1 turn")[0], f"{NAME}: 1 class, 1 method, 1 actor")


ADD, END = path_of_tool("add-variable"), path_of_tool("end-turn")


def further_variables(program):
    """A class has further variables, behind its own in the objects of the classes below it too, also in the middle of a turn."""
    with tempfile.TemporaryDirectory() as folder:
        lines = ["A : Object | a |", "A >> a  ^a", "B : A | b |", "B >> a: x b: y  a := x. b := y", "B >> sum  ^self a * 10 + b"]
        lines += ["B >> work  [self sum < 100] whileTrue: [b := b + 1]. ^self sum", "b := B actor. b a: 3 b: 4", "a := A actor"]
        typed(program, folder, [*lines, ":post b work", ":step"], "--quantum", "50")
        was = content(folder)
        for given, status, said in (
            (["A", "c"], 0, "job.image: A : Object | a c |, 2 objects"),
            (["A", "x"], 1, "job.image stays as it is: edits: edits[3].install.source: DuplicateName"),
            (["A", "a"], 1, "job.image stays as it is: edits: edits[0].define"),
            (["Object", "c"], 1, "job.image has no class Object that was defined"),
            (["C", "c"], 1, "job.image has no class C that was defined"),
        ):
            with open(os.path.join(folder, NAME), "wb") as file:
                file.write(was)
            ended = subprocess.run([sys.executable, ADD, NAME, *given], cwd=folder, capture_output=True, text=True)
            same((ended.returncode, said in ended.stdout + ended.stderr), (status, True))
            same(content(folder) == was, status != 0)
        subprocess.run([sys.executable, ADD, NAME, "A", "c", "d"], cwd=folder, capture_output=True, check=True)
        lines = [":classes", "b := actor 0", ":run", "A >> d  d isNil ifTrue: [d := 0]. d := d + 1. ^d", "b d. b d. b d", "b sum"]
        wanted = [f"{NAME}: 2 classes, 4 methods, 2 actors, 1 turn to run", "A : Object | a c d |", "B : A | b |", "actor 0"]
        found = typed(program, folder, lines)[0]
        same((found[:4], found[5:]), (wanted, ["turn 0 of actor 0 answers 100", "3", "100"]))


SHOWN = """\
actor 0, an Other
  a = 0
  b = an Other
mailbox: open, 1 of 1,024 messages
  + actor 1  from actor 0, number 18446744073709551615
turn 0: begins brought: 1 by: #brought:by:
actor 1, an Other
  a = nil
  b = nil
mailbox: closed, 0 of 1 message
turn 0: runs UndefinedObject >> + true    Twin
  called by Twin >> step    an Other, a nil, b nil; t an Object (object 1)
1 further object; :inspect actor 1 1  shows object 1
object 1 of actor 1, an Object
actor 2, an Object
mailbox: open, 0 of 64 messages
turn 0: answered Twin
"""


def shown(program):
    """Actors of a file that was written by hand: one is at the start of a message."""
    with tempfile.TemporaryDirectory() as folder:
        shutil.copy(os.path.join(TOP, "tests", "inspect", "by-hand.json"), os.path.join(folder, NAME))
        found = typed(program, folder, [":inspect actor 0", ":inspect actor 1", ":inspect actor 1 1", ":inspect actor 2"])[0]
        same(found[1:], SHOWN.splitlines())


def ended_turn(program):
    """A turn that no edit ends is ended in the file, and the next message is done."""
    with tempfile.TemporaryDirectory() as folder:
        lines = ["C : Object", "C >> loop  [true] whileTrue: [nil]", "C >> seven  ^7", "c := C actor", ":post c loop", ":post c seven"]
        typed(program, folder, [*lines, ":step 3"])
        for number, status, said in (
            ("0", 0, "job.image: the turn of actor 0 has ended with nil; 1 of its messages wait\n"),
            ("0", 1, "bin/end-turn: actor 0 of job.image is in no turn\n"),
            ("1", 1, "bin/end-turn: job.image has no actor 1\n"),
        ):
            ended = subprocess.run([sys.executable, END, NAME, number], cwd=folder, capture_output=True, text=True)
            same((ended.returncode, ended.stdout + ended.stderr), (status, said))
        found = typed(program, folder, ["c := actor 0", ":turn 0 of c", ":run"])[0]
        same(found[2:], ["turn 0 of actor 0 answers nil", "1 quantum, 3 steps", "turn 1 of actor 0 answers 7"])


TRIALS = (
    further_variables, shown, ended_turn, goes_on, as_typed, middle_of_turn, refused, no_place, linked, at_signals, program_is_killed,
    broken_off,
)
