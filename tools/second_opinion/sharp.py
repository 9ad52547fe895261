"""Puts wrong rules into the second reader: a rule that no source tells from a wrong one is not tested."""

import os
import shutil
import subprocess
import sys
import tempfile

from .wrong_acting import WRONG_ACTING
from .wrong_edits import WRONG_EDITS
from .wrong_epochs import WRONG_EPOCHS
from .wrong_failing import WRONG_FAILING
from .wrong_inspecting import WRONG_INSPECTING
from .wrong_looking import WRONG_LOOKING
from .wrong_mailboxes import WRONG_MAILBOXES
from .wrong_places import WRONG_PLACES
from .wrong_reading import WRONG_READING
from .wrong_running import WRONG_RUNNING

HERE = os.path.dirname(os.path.realpath(__file__))
TOOLS = os.path.dirname(HERE)
LIB = os.path.join(os.path.dirname(TOOLS), "lib")
# What the copy's status says. It may also trip over itself, which tells the rules apart too.
TRIALS = {0: "NOT told apart", 1: "told apart"}
TRIPPED = "trips over itself"


def furnish(room):
    """Makes a folder like the repository, with what the second reader reads beside itself."""
    for name in ("lib", "tools"):
        os.mkdir(os.path.join(room, name))
    os.symlink(os.path.join(LIB, "common"), os.path.join(room, "lib", "common"))
    os.symlink(os.path.join(TOOLS, "trial_parts"), os.path.join(room, "tools", "trial_parts"))
    os.symlink(os.path.join(os.path.dirname(TOOLS), "tests"), os.path.join(room, "tests"))


def put_copy(room):
    """The folders of a new copy of the second reader: of what reads and compiles, and of what runs."""
    folders = {os.path.join(room, "lib", "smalltalk"): os.path.join(LIB, "smalltalk"), os.path.join(room, "tools", "second_opinion"): HERE}
    for copy, folder in folders.items():
        shutil.rmtree(copy, ignore_errors=True)
        shutil.copytree(folder, copy, ignore=shutil.ignore_patterns("__pycache__"))
    return list(folders)


def put_wrong_rule(rule, folders):
    [path] = filter(os.path.exists, (os.path.join(folder, rule.file + ".py") for folder in folders))
    with open(path) as file:
        text = file.read()
    if text.count(rule.right) != 1:
        raise ValueError(f"the right text of '{rule.says}' stands {text.count(rule.right)} times in {rule.file}.py, not once")
    with open(path, "w") as file:
        file.write(text.replace(rule.right, rule.wrong))


def status_of_copy(program, room):
    start = "import sys; sys.dont_write_bytecode = True; sys.path.append('../lib'); from second_opinion.main import main; main()"
    words = [sys.executable, "-c", start, program, "--briefly"]
    where = os.path.join(room, "tools")
    return subprocess.run(words, cwd=where, stdout=subprocess.DEVNULL, stderr=subprocess.DEVNULL).returncode


def trial(rule, program, room):
    put_wrong_rule(rule, put_copy(room))
    return TRIALS.get(status_of_copy(program, room), TRIPPED)


def try_wrong_rules(program):
    """The status: 0 where each wrong rule is told apart. A copy with the right rules has to find no difference, or nothing is shown."""
    rules = WRONG_READING + WRONG_PLACES + WRONG_RUNNING + WRONG_ACTING + WRONG_MAILBOXES + WRONG_LOOKING + WRONG_INSPECTING + WRONG_EDITS
    rules += WRONG_EPOCHS + WRONG_FAILING
    missed = 0
    with tempfile.TemporaryDirectory(prefix="second-opinion-") as room:
        furnish(room)
        put_copy(room)
        if status_of_copy(program, room) != 0:
            print("tools/second-opinion: a copy of the second reader with the right rules finds a difference, or does not run")
            return 1
        for rule in rules:
            result = trial(rule, program, room)
            missed += result == TRIALS[0]
            print(f"{result}: {rule.says}", flush=True)
    print(f"tools/second-opinion: {len(rules)} wrong rules, {missed} of which no source tells apart")
    return 1 if missed else 0
