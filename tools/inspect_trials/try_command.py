"""Trials of the command line, and of a file that is large."""

import os
import subprocess
import sys
import tempfile

from inspect_parts.page import page
from inspect_parts.reading import read_image
from trial_parts.patience import PATIENCE

from .checked import check_page
from .try_common import INSPECT, good_files, read, run, same
from .try_limits import define, install
from .written import file_text

MANY = 10_000
FEWER = 500
SECONDS = 10
NAME = "a\n<b>\u00e9\udcff.json"


def words():
    """Help, words that are wrong, and files that cannot be read."""
    path = good_files()["loop"]
    asked = run("--help")
    same((asked.returncode, asked.stderr, b"bin/inspect FILE > page.html" in asked.stdout), (0, b"", True))
    for wrong in ((), ("--try", path), (path, path), ("--never",)):
        ended = run(*wrong)
        same((wrong, ended.returncode, ended.stdout, b"Traceback" in ended.stderr), (wrong, 2, b"", False))
    for name, why in (("no-such-file", "No such file or directory"), (os.path.dirname(path), "Is a directory")):
        ended = run(name)
        same((ended.returncode, ended.stdout, ended.stderr), (1, b"", f"bin/inspect: {name}: {why}\n".encode()))
    return 7


def names():
    """A file whose name is markup and goes over lines."""
    with tempfile.TemporaryDirectory() as folder:
        path = os.path.join(os.fsencode(folder), os.fsencode(NAME))
        for data, status, lines in ((read(good_files()["loop"]), 0, 0), (b"{}", 1, 1)):
            with open(path, "wb") as file:
                file.write(data)
            ended = run(path)
            same((ended.returncode, ended.stderr.count(b"\n"), b"Traceback" in ended.stderr), (status, lines, False))
            if status == 0:
                check_page(ended.stdout.decode(), read_image(data))
    return 2


def outputs():
    """Nobody reads the page, or there is no room for it: no traceback, and status 1."""
    reading, writing = os.pipe()
    os.close(reading)
    ends = [(writing, b"")]
    if os.path.exists("/dev/full"):
        ends.append((os.open("/dev/full", os.O_WRONLY), b"bin/inspect: standard output: No space left on device\n"))
    for output, wanted in ends:
        command = [sys.executable, INSPECT, good_files()["loop"]]
        ended = subprocess.run(command, stdout=output, stderr=subprocess.PIPE, timeout=PATIENCE)
        os.close(output)
        same((ended.returncode, ended.stderr), (1, wanted))
    return len(ends)


def many_actors(count):
    """A file of many actors: a third of them are in a turn, and every second one has a message pending."""
    edits = [define("Node", slots=["next", "count"])]
    edits += [install(source, "Node") for source in ("next: n next := n. ^count", "go: n ^(self next: n) + 1")]
    waiting = {"method": 2, "operands": [], "pc": 3, "receiver": {"local": 0}, "temps": [3]}
    running = {"method": 1, "operands": [3], "pc": 1, "receiver": {"local": 0}, "temps": [3]}
    phases = ["fresh", {"answer": {"ref": 7}}, {"frames": [waiting, running]}]
    actors = []
    for number in range(count):
        slots = [{"ref": (number + 1) % count}, number]
        body = {"objects": [{"class": "Node", "slots": slots}] * 2, "phase": phases[number % 3]}
        sent = [{"args": [{"ref": number}], "selector": "go:", "sender": 1, "seq": number + 1}] * (number % 2)
        actors.append({"body": body, "capacity": 64, "class": "Node", "last": 0, "open": True, "pending": sent})
    counts = {"posts": 0, "steps": 0}
    return {"actors": actors, "edits": edits, "format": 2, "names": ["next:", "go:"], "senders": [[1, count]], **counts}


def spent():
    """The processor time of the programs that were run so far, which does not depend on what else the machine does."""
    times = os.times()
    return times.children_user + times.children_system


def large():
    """The page of 10,000 actors is there in time; that of fewer is looked at."""
    fewer = read_image(file_text(many_actors(FEWER)).encode())
    check_page(page(fewer, "fewer"), fewer)
    data = file_text(many_actors(MANY)).encode()
    with tempfile.NamedTemporaryFile(suffix=".json") as file:
        file.write(data)
        file.flush()
        began = spent()
        ended = run(file.name)
        taken = spent() - began
    same((ended.returncode, ended.stderr), (0, b""))
    if taken > SECONDS:
        raise AssertionError(f"the page of {MANY:,} actors took {taken:.1f} seconds of a processor")
    return f"{MANY:,} actors, a page of {len(ended.stdout) / 1e6:.1f} MB in {taken:.1f} seconds of a processor"


TRIALS = (words, names, outputs, large)
