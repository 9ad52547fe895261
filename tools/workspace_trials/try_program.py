"""Trials of the program below: runs that do not end, the log, and a program that is not there or is lost."""

import json
import os
import re
import shutil
import signal
import subprocess
import sys
import tempfile

from common.repository import TOP
from trial_parts.patience import PATIENCE

from .try_common import COUNTER, SPIN, WORKSPACE, piped, same, shell_program

STOPPED = "was stopped after ([0-9,]+) quanta, to save half of the history; an edit of a method that it sends ends it"


def endless(program):
    """A run that nobody breaks off leaves half of the history, however many messages it begins."""
    pair = ["P : Object | pal |", "P >> pal: p  pal := p. ^self hit", "P >> hit  ^pal post: #hit", "p := P actor. q := P actor"]
    for lines, end in (
        ([*SPIN, "s spin", ":run", ":step 1000000", "Spin >> goOn  ^false", ":run"], "turn 1 of actor 0 answers 7\n"),
        ([*pair, "p pal: q. q pal: p", ":run", ":run", ":step 1000000", "P >> hit  ^7", "p hit"], "7\n"),
    ):
        found = piped(program, lines, "--quantum", "8").stdout.decode()
        stops = re.findall(STOPPED, found)
        same([int(it.replace(",", "")) // 1000 for it in stops], [249, 124, 62])
        same(found.endswith(end), True)


def files(program):
    """The status says whether all was done that stands in the files of the command line."""
    with tempfile.TemporaryDirectory() as folder:
        for text, status in (("C : Object\nC >> m  ^1\n", 0), ("C : Object\nC >> m  ^(1\n", 1)):
            path = os.path.join(folder, "c.st")
            with open(path, "w", encoding="utf-8") as file:
                file.write(text)
            same(piped(program, ["c := C actor"], path).returncode, status)


def expected(program):
    """A file checks answers. The first that is another one fails it, with its line; so does one that is typed."""
    lines = ["C : Object | n |", "C >> up  n isNil ifTrue: [n := 0]. n := n + 1. ^n", "c := C actor", ":expect actor 0", "c up. c up"]
    good = [*lines, '"Two."', "C >> name  ^#c", ":expect  2", "c name", ":expect #c"]
    with tempfile.TemporaryDirectory() as folder:
        path = os.path.join(folder, "c.st")
        for more, wrong, status in (
            ([], [], 0),
            (["c up", ":expect 4"], ["3", "c.st, line 12:", "4 is expected, and the answer is 3"], 1),
            (["c foo", ":expect nil"], ["c.st, line 11:", FAULT, "c.st, line 12:", IS_FAULT.format("nil")], 1),
            (["c foo", ":expect fault  overflow"], ["c.st, line 11:", FAULT, "c.st, line 12:", IS_FAULT.format("fault  overflow")], 1),
            (["c foo", *[":expect fault notUnderstood"] * 2], ["c.st, line 11:", FAULT], 0),
        ):
            with open(path, "w", encoding="utf-8") as file:
                file.write("\n".join([*good, *more]))
            ended = piped(program, [], "c.st", cwd=folder)
            refused = sum("line" in it for it in wrong) if status else 0
            said = ["actor 0", "2", "#c", *wrong, "c.st: 1 class, 2 methods" + (f", {refused} refused" if refused else "")]
            same((ended.stdout.decode().splitlines(), ended.returncode), (said, status))
    same([piped(program, [*lines, f":expect {number}"]).returncode for number in (2, 3)], [0, 1])


def why_not_expected(program):
    """`:why` behind a refused `:expect` is of that, and of the fault that came in place of an answer."""
    lines = ["C : Object", "c := C actor", "c foo", "c isNil", ":expect true", ":why", "c foo", ":expect true", ":why"]
    printed = piped(program, lines).stdout.decode().splitlines()
    first = "true is expected, and the answer is false"
    same([it for it in printed[printed.index("> :expect true") :] if not it.startswith("> ")][:2], [first, first])
    printed = printed[len(printed) - printed[::-1].index("> :why") :]
    same((printed[0], printed[1].partition(",")[0]), (IS_FAULT.format("true"), "a C foo: notUnderstood"))


FAULT = "fault notUnderstood in turn 4 of actor 0"
IS_FAULT = "{} is expected, and the answer is fault notUnderstood"


def tools():
    """All tools, those for users and those of the house."""
    for part in ("bin", "tools"):
        folder = os.path.join(TOP, part)
        yield from (f"{part}/{it}" for it in sorted(os.listdir(folder)) if os.path.isfile(os.path.join(folder, it)))


def helped(program):
    """Each tool says how it is used, also from another folder and by a link to it."""
    with tempfile.TemporaryDirectory() as folder:
        for name in tools():
            path, link = os.path.join(TOP, name), os.path.join(folder, os.path.basename(name))
            os.symlink(path, link)
            for word in (path, link):
                ended = subprocess.run([word, "--help"], capture_output=True, text=True, timeout=PATIENCE, cwd=folder)
                same((word, name in ended.stdout, ended.stderr, ended.returncode), (word, True, "", 0))


def copied_alone(program):
    """What is for users works without the rest of the repository; trials are not there."""
    with tempfile.TemporaryDirectory() as folder:
        for name in ("bin", "lib", "clients"):
            shutil.copytree(os.path.join(TOP, name), os.path.join(folder, name))

        def run(name, *words, given=""):
            path = os.path.join(folder, "bin", name)
            ended = subprocess.run([path, *words], input=given, capture_output=True, text=True, timeout=PATIENCE, cwd=folder)
            return ended.stdout, ended.stderr, ended.returncode

        for name in os.listdir(os.path.join(folder, "bin")):
            same((name, run(name, "--help")[1:]), (name, ("", 0)))
        typed, *ended = run("workspace", "--program", program, given="\n".join([*COUNTER, "c := Counter actor", "c start. c bump"]))
        same((typed.splitlines()[-1], ended), ("1", ["", 0]))
        page, *ended = run("inspect", os.path.join(TOP, "examples", "job.image.json"))
        same((page.startswith("<!DOCTYPE html>"), ended), (True, ["", 0]))
        for name, *words in (("inspect", "--try"), ("top", "--try", program), ("page", "--try", program)):
            wanted = f"bin/{name}: its trials are in the repository alone, in tools/{name}_trials\n"
            same(run(name, *words), ("", wanted, 1))


def lost_faults(program):
    """Of an image of one's own, which has no journal, it is told how many faults are lost."""
    fails = "D >> fail: n  | i |  i := 0. [i < n] whileTrue: [i := i + 1. thisActor post: #fail]"
    for count, wanted in ((4, ":faults 64  lists them one by one"), (6, "2 turns failed before step 108, that of the first one that is kept")):
        lines = ["D : Object", "D >> fail  ^1 // 0", fails, "d := D actor", f"d fail: {count}", "d fail: 60. d isNil", ":faults"]
        same(piped(program, lines).stdout.decode().splitlines()[-1][-len(wanted) :], wanted)


def interrupted(program):
    """A run that is broken off ends a workspace that reads no terminal."""
    with subprocess.Popen(
        [sys.executable, WORKSPACE, "--program", program], stdin=subprocess.PIPE, stdout=subprocess.PIPE, stderr=subprocess.PIPE
    ) as process:
        process.stdin.write("".join(line + "\n" for line in [*SPIN, "s spin", ":quit"]).encode())
        process.stdin.flush()
        while b"spin\n" != process.stdout.readline()[-5:]:
            pass
        process.send_signal(signal.SIGINT)
        out, err = process.communicate(timeout=PATIENCE)
        same(("broken off" in out.decode(), err, process.returncode), (True, b"", 130))


def log(program):
    """What was sent, sent again as a script, gets the same replies. Faults are asked for where something has run."""
    with tempfile.TemporaryDirectory() as folder:
        lines = [*COUNTER, "c := Counter actor", "c start. c bump", "Counter >> bad  ^(", "c foo", ":log log.jsonl"]
        piped(program, lines, cwd=folder)
        with open(os.path.join(folder, "log.jsonl"), encoding="utf-8") as file:
            told = [json.loads(line) for line in file]
    text = "".join(json.dumps(it["sent"]) + "\n" for it in told)
    again = subprocess.run([program, "script"], input=text.encode(), capture_output=True, timeout=PATIENCE).stdout.decode()
    same([json.loads(line) for line in again.splitlines()], [it["answered"] for it in told])
    same((len(told), [it["sent"]["after"] for it in told if it["sent"]["cmd"] == "faults"]), (19, [0, 14]))


def no_program(program):
    """A program that cannot be started, or is another one."""
    how = "./actorimage builds the program, and README.md says what that needs"
    for name, wanted in (
        ("/no/such", f"/no/such cannot be started (No such file or directory); {how}"),
        ("/bin/true", "/bin/true is not the program of actorimage"),
        ("/bin/false", f"/bin/false could not be started, or refused its image, for the reason above; {how}"),
    ):
        ended = piped(name, [])
        same((ended.stderr.decode(), ended.returncode), (f"bin/workspace: {wanted}\n", 1))
    ended = piped(program, [], "--quantum", "0")
    same(ended.stderr.decode().endswith("refused its options; --quantum and --capacity are 1 to 1,024\n"), True)
    same(ended.returncode, 1)


def no_file(program):
    """A file that cannot be read."""
    ended = piped(program, [], "nofile.st")
    wanted = "bin/workspace: nofile.st cannot be read (No such file or directory)\n"
    same((ended.stderr.decode(), ended.returncode), (wanted, 1))


def lost_program(program):
    """A program that ends in the middle, or replies what is no reply. What was typed so far is kept, with what it was typed into last."""
    greeting, version = """read line; echo '{"error":"UnknownActor"}'; read line; """, """echo '{"ok":{"version":1}}'; read line; """
    kept = "; the classes and methods of this session are in lost1.st, for  :load"
    again = "; start the workspace again"
    made, written = "C : Object | a |\n", "C >> m  ^a\n"
    for before, more, wanted, lines in (
        ("", "exit 3", f"the program ended with status 3{again}{kept}", made),
        ("", "echo no", f"the program ended with status 0{again}{kept}", made),
        (version, "exit 3", f"the program ended with status 3{again}{kept}", made + written),
    ):
        with tempfile.TemporaryDirectory() as folder:
            ended = piped(shell_program(folder, greeting + before + more), [made.strip(), written.strip(), "C actor"], cwd=folder)
            same((ended.stderr.decode(), ended.returncode), (f"bin/workspace: {wanted}\n", 1))
            with open(os.path.join(folder, "lost1.st"), encoding="utf-8") as file:
                same(file.read(), lines)


def too_long(program):
    """A line that would end the session is not sent."""
    lines = ["C : Object", "C >> m  ^3" + " " * 4096 + "+ 4", "C >> m  ^3" + " " * 9000 + "+ 4", "C actor"]
    found = piped(program, lines).stdout.decode()
    same("^ TooLarge: the method is too long; put a part of it into another one\n" in found, True)
    same("TooLong: this is too long for one line to the program, 8,192 bytes; make it shorter\n" in found, True)
    same(found.endswith("actor 0\n"), True)


def many_waiting(program):
    """Of many actors that have something to do, only the first are looked into when a method is removed, and of these the first are named.
    A list of actors is cut, and goes on from where it ended."""
    busy = [line for _ in range(65) for line in ("t := Till actor", ":post t rest")]
    lines = ["Till : Object", "Till >> rest  ^nil", "Till actor", *busy, ":remove Till rest"]
    found = piped(program, lines).stdout.decode().splitlines()
    first = ", ".join(f"actor {it}" for it in range(1, 11))
    place = found.index("> :remove Till rest")
    more = "more than 64 actors have something to do; the first 64 of them were looked into"
    same(found[place + 1 : place + 3], [f"64 messages that wait ask for it: {first} and 54 others", more])
    lines = ["Till : Object", *["t := Till actor"] * 102, ":actors Till", ":actors Till 100"]
    found = piped(program, lines).stdout.decode().splitlines()
    place = found.index("> :actors Till 100")
    same(found[place - 1], "there are more; :actors Till 100  goes on")
    same([it.split()[0] for it in found[place + 1 :]], ["actor", "100", "101"])


TRIALS = (
    endless, files, expected, why_not_expected, helped, copied_alone, lost_faults, interrupted, log, no_program, no_file, lost_program,
    too_long, many_waiting,
)
