"""Trying edits: by the prover, or by the test or the trial that an edit names."""

import os
import re
import shutil
import subprocess
import tempfile

from common.repository import TOP
from wrong_bodies.edits import apply, by_of, crates_of, path_of, test_of, trial_of, why_not
from wrong_bodies.program import build

# What a check says where a stored proof no longer fits the code: that shows nothing about the clauses.
UNFIT = re.compile(r"has no field|not in scope|no such name|unknown name|that can be named")
# The most goals that are named of one edit.
MOST = 3


def link(old, new):
    """The same file again, where that can be."""
    try:
        os.link(old, new)
    except OSError:
        shutil.copy2(old, new)


def copy_of(top, crate=None):
    """Copies the repository without its results, but with those of a crate, and with links to the libraries."""
    shutil.copytree(TOP, top, symlinks=True, ignore=shutil.ignore_patterns(".git", "out"))
    for name in crates_of(TOP) if crate else []:
        out = f"{TOP}/crates/{name}/out"
        if name == crate and os.path.isdir(out):
            shutil.copytree(out, f"{top}/crates/{name}/out")
        elif os.path.isdir(f"{out}/rlib"):
            shutil.copytree(f"{out}/rlib", f"{top}/crates/{name}/out/rlib", copy_function=link)


def run(words, folder):
    return subprocess.run(words, cwd=folder, stdin=subprocess.DEVNULL, stdout=subprocess.PIPE, stderr=subprocess.STDOUT, text=True, errors="replace")


def goals_of(lines):
    """The goals that are not proved, as far as a line names them."""
    goals = []
    for line in lines:
        found = re.search(r": error: `([\w+-]+)`", line) or re.search(r"^note: src/.*not proved.*\(`([\w+-]+)`\)", line)
        if found and not UNFIT.search(line) and found[1] not in goals:
            goals.append(found[1])
    return goals


def by_the_prover(edit, crate):
    """Whether the prover refuses the crate in a folder with an edit by a clause, what refuses it, and what it said. The function that is
    edited is tried alone first, and the crate where nothing of that is refused."""
    path = path_of(edit, crate)
    back = apply(edit, crate)
    try:
        refused = path and verdict_of(run(["rt", "check", "--jobs", "1", "--only", path], crate))
        return refused if refused and refused[0] else verdict_of(run(["rt", "check", "--jobs", "1"], crate))
    finally:
        back()


def verdict_of(ended):
    """What a check that has ended shows of an edit, as `by_the_prover` says it."""
    lines = ended.stdout.rstrip("\n").split("\n")
    told = [line for line in lines if re.match(r"(note: )?(\./)?\w+/\S+:\d+:\d+: ", line) or re.match(r"fn \S+: (not proved|no proof)", line)]
    if ended.returncode == 0:
        return False, "NOT REFUSED", told
    if not any(line.startswith(("logic=not-proved", "only=")) for line in lines):
        return False, "BAD EDIT: it did not reach the prover", lines
    functions = re.findall(r"^fn \w+::(\S+): not proved$", ended.stdout, re.M)
    goals = goals_of(told)
    if not goals:
        return False, "NOT REFUSED BY A CLAUSE: a stored proof names what it took away, or the prover does not cover it", told
    return True, said_of(functions[0] if functions else "", goals), told


def said_of(function, goals):
    """What refused an edit, as a page says it."""
    more = f" and {len(goals) - MOST} more" if len(goals) > MOST else ""
    names = ", ".join(f"`{goal}`" for goal in goals[:MOST])
    return f"`{function}`: {names}{more}" if function else f"{names}{more}"


def together(edits, crate):
    """Tries edits of different functions in one check of the crate in a folder, as far as they can be applied together. The answer is
    those that were; by the name of each function that failed by itself, what was said of it; and the names of those that were not looked
    at, since they call one that failed."""
    tried, backs = [], []
    for edit in edits:
        if not why_not(edit, crate):
            tried.append(edit)
            backs.append(apply(edit, crate))
    try:
        ended = run(["rt", "check", "--jobs", "1"], crate)
    finally:
        for back in reversed(backs):
            back()
    failed, passed_over, told = {}, set(), []
    for line in ended.stdout.split("\n"):
        found = re.match(r"fn \w+::(\S+): (not proved|no proof: it calls|no proof)", line)
        if found and found[2] == "no proof: it calls":
            passed_over.add(found[1])
        elif found:
            failed[found[1]] = [*told, line]
        elif re.match(r"(note: )?(\./)?\w+/\S+:\d+:\d+: ", line):
            told.append(line)
        if re.match(r"fn \S+: ", line):
            told = []
    if not failed and len(tried) > 1:
        # One that does not compile keeps all others from the prover.
        halves = [together(half, crate) for half in (tried[: len(tried) // 2], tried[len(tried) // 2 :])]
        return tried, {**halves[0][1], **halves[1][1]}, halves[0][2] | halves[1][2]
    return tried, failed, passed_over


def by_clauses(edits, crate):
    """For each edit that names no test and no trial whether a clause refuses it, what refuses it, and what was said. Edits of different
    functions are tried in one check, and what that leaves open one by one."""
    left, alone = [edit for edit in edits if path_of(edit, crate)], [edit for edit in edits if not path_of(edit, crate)]
    while left:
        batch = {path_of(edit, crate): edit for edit in reversed(left)}
        tried, failed, passed_over = together(list(batch.values()), crate)
        judged = []
        for edit in tried:
            path = path_of(edit, crate)
            told = next((lines for name, lines in failed.items() if f"::{name}".endswith(f"::{path}")), [])
            goals = goals_of(told)
            if goals:
                yield edit, True, said_of(path, goals), told
            elif not any(f"::{name}".endswith(f"::{path}") for name in passed_over):
                alone.append(edit)
            else:
                continue
            judged.append(edit)
        if not judged:
            # What failed has a name that no edit has.
            alone += tried
        left = [edit for edit in left if edit not in (judged or tried)]
    for edit in alone:
        yield edit, *by_the_prover(edit, crate)


def by_a_test(edit, top, crate):
    """The same of the test that an edit names. The tests of its crate are run without proofs."""
    test_crate, name = test_of(edit)
    back = apply(edit, f"{top}/crates/{crate}")
    try:
        ended = run(["rt", "try", "--test"], f"{top}/crates/{test_crate}")
    finally:
        back()
    lines = ended.stdout.rstrip("\n").split("\n")
    failed = re.findall(r"^test (\S+) \.\.\. FAILED", ended.stdout, re.M)
    is_well = name in failed
    return is_well, by_of(edit) if is_well else "NOT REFUSED BY ITS TEST", lines


class Unedited:
    """The program of the sources as they are, without proofs. A trial that fails on it too shows nothing of an edit."""

    def __init__(self, room):
        self.program = f"{room}/unedited"
        self.is_tried, self.said = False, None
        self.failed = {}

    def why_not(self, trial, top):
        """Why the program does not pass a trial, or None. The copy in a folder is without edits."""
        if not self.is_tried:
            self.is_tried, self.said = True, build(top, self.program)
        if self.said is not None:
            return self.said
        if trial not in self.failed:
            ended = run_trial(trial, self.program)
            self.failed[trial] = ended.stdout if ended.returncode else None
        return self.failed[trial]


def run_trial(trial, program):
    """Runs a trial: a tool, whose first word is the program, and its other words."""
    tool, *words = trial
    return run([f"{TOP}/{tool}", program, *words], TOP)


def by_a_trial(edit, top, crate, unedited):
    """The same of the trial that an edit names. It is run on the program of the edited sources, which is built without proofs."""
    trial = trial_of(edit)
    why = unedited.why_not(trial, top)
    if why is not None:
        return False, "NOT TRIED: the sources as they are do not pass its trial", why.rstrip("\n").split("\n")
    program = f"{top}/edited"
    back = apply(edit, f"{top}/crates/{crate}")
    try:
        said = build(top, program)
    finally:
        back()
    if said is not None:
        return False, "BAD EDIT: no program is built", said.rstrip("\n").split("\n")
    ended = run_trial(trial, program)
    lines = ended.stdout.rstrip("\n").split("\n")
    # It says which trial fails, or which tool: the words behind it may be options and numbers.
    names = [word for word in trial[1:] if not word.startswith("-") and not word.isdigit()] or trial[:1]
    is_well = ended.returncode != 0 and any(name in ended.stdout for name in names)
    return is_well, by_of(edit) if is_well else "NOT REFUSED BY ITS TRIAL", lines


def try_edits(crate, edits, unedited):
    """Tries edits of one crate in a copy, and gives for each whether it is refused, by what, and what was said."""
    by_trials = [edit for edit in edits if trial_of(edit)]
    by_tests = [edit for edit in edits if test_of(edit)]
    others = [edit for edit in edits if not by_of(edit)]
    with tempfile.TemporaryDirectory(prefix="wrong-bodies-") as room:
        if others:
            copy_of(f"{room}/proved", crate)
            yield from by_clauses(others, f"{room}/proved/crates/{crate}")
        if by_tests or by_trials:
            copy_of(f"{room}/run")
        for edit in by_tests:
            yield edit, *by_a_test(edit, f"{room}/run", crate)
        for edit in by_trials:
            yield edit, *by_a_trial(edit, f"{room}/run", crate, unedited)
