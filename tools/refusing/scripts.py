"""Scripts of which one allocation fails: the line that found no memory is asked again."""

import json
import os
import re
import subprocess
import tempfile

from common.compact import in_given_order
from trial_parts.patience import PATIENCE

from .shim import Failing

NO_MEMORY = '{"error":"NoMemory"}'
# Of each run another one.
EPOCH = re.compile(r'"epoch":"[^"\\]+"')


def whole_replies(program, lines):
    """The replies of a script as they are, but for epochs."""
    text = "".join(line + "\n" for line in lines).encode()
    out = subprocess.run([program, "script"], input=text, capture_output=True, timeout=PATIENCE).stdout.decode()
    return [without_epoch(it) for it in out.splitlines()]


def without_epoch(reply):
    return EPOCH.sub('"epoch":"now"', reply)


def run(program, lines, failing=None, options=()):
    """The status, the replies and standard error of a script. It is read from a file, which gives the same pieces each time: a pipe gives
    smaller ones where its writer is slow, and then other allocations are made."""
    env = failing.env if failing else None
    with tempfile.TemporaryFile() as file:
        file.write("".join(line + "\n" for line in lines).encode())
        file.seek(0)
        ended = subprocess.run([program, "script", *options], stdin=file, capture_output=True, env=env, timeout=PATIENCE)
    return ended.returncode, [told(it) for it in ended.stdout.decode().splitlines()], ended.stderr.decode()


# What a reply to `stats` tells of a site.
KEYS = ["global", "selector", "sends", "site", "state", "super", "walk"]


def told(reply):
    """A reply without an epoch; one to `stats`, where it is written as it must be, without how its sends were found and what state that left,
    since a lookup that finds no memory for what it is to keep is not refused and finds it anew."""
    reply = without_epoch(reply)
    ok = json.loads(reply).get("ok") if reply.startswith("{") and reply.endswith("}") else None
    if not isinstance(ok, dict) or "sites" not in ok:
        return reply
    if in_given_order({"ok": ok}) != reply or any(list(it) != KEYS for it in ok["sites"]):
        return reply
    return json.dumps({"ok": {"sent": [[it["selector"], it["super"], it["sends"]] for it in ok["sites"]]}})


def first_difference(got, usual):
    place = 0
    while place < min(len(got), len(usual)) and got[place] == usual[place]:
        place += 1
    return place


class Again:
    """How the line that found no memory was answered when it was asked again."""

    def __init__(self, is_fine, is_part=False):
        self.is_fine, self.is_part = is_fine, is_part


def command_of(line):
    """The name of a line's command, or None where the line is none."""
    try:
        found = json.loads(line)
    except ValueError:
        return None
    return found.get("cmd") if isinstance(found, dict) else None


def ended_run(reply):
    """The quanta and steps of a `run` that was not refused."""
    ok = json.loads(reply).get("ok")
    return (ok["quanta"], ok["steps"]) if isinstance(ok, dict) and "quanta" in ok else None


def by_steps(replies):
    """Replies, with those of `run` by their steps alone."""
    return [ended_run(it)[1] if ended_run(it) else it for it in replies]


def cut_run(program, lines, usual, place, taken):
    """With ample memory and quanta of one step, a `run` of the given number of steps and then the rest: the replies, or None where a
    quantum has more than one step."""
    first = json.dumps({"cmd": "run", "quanta": taken})
    every = json.dumps({"cmd": "run", "quanta": 1000000})
    rest = [every if command_of(it) == "run" and ended_run(reply) else it for it, reply in zip(lines, usual)]
    _, got, _ = run(program, rest[:place] + [first] + rest[place:], options=("--quantum", "1"))
    if any(ended_run(it) and ended_run(it)[0] != ended_run(it)[1] for it in got):
        return None
    return got


def run_again(program, lines, usual, got, place):
    whole, rest = ended_run(usual[place]), ended_run(got[place + 1])
    if not whole or not rest or rest[0] > whole[0] or rest[1] > whole[1]:
        return Again(False)
    if got[: place + 1] + got[place + 2 :] != usual[:place] + [NO_MEMORY] + usual[place + 1 :]:
        return Again(False)
    taken = whole[1] - rest[1]
    if taken:
        cut = cut_run(program, lines, usual, place, taken)
        want = by_steps(usual[:place]) + [taken, rest[1]] + by_steps(usual[place + 1 :])
        if cut is not None and by_steps(cut) != want:
            return Again(False)
    return Again(True, 0 < taken < whole[1])


def asked_again(program, lines, usual, place, failing):
    again = lines[: place + 1] + lines[place:]
    _, got, _ = run(program, again, failing)
    if command_of(lines[place]) == "run" and ended_run(usual[place]) and len(got) == len(usual) + 1:
        return run_again(program, lines, usual, got, place)
    return Again(got == usual[:place] + [NO_MEMORY] + usual[place:])


def not_as_written(program, script, lines):
    """What is wrong with the replies of a run with ample memory, where a file beside the script has them."""
    path = os.path.splitext(script)[0] + ".replies"
    if not os.path.exists(path):
        return []
    with open(path) as file:
        wanted = file.read().splitlines()
    got = whole_replies(program, lines)
    place = first_difference(got, wanted)
    return [] if got == wanted else [f"with ample memory: reply {place + 1} is not the one of {path}"]


def check(program, shim, script):
    """Whether no run was wrong, and in how many a `run` had taken some steps and not all."""
    with open(script) as file:
        lines = file.read().splitlines()
    status, usual, _ = run(program, lines)
    short, parts, wrong = 0, 0, not_as_written(program, script, lines)
    if status != 0 or len(usual) != len(lines) or NO_MEMORY in usual:
        wrong.append(f"with ample memory: {len(usual)} replies to {len(lines)} lines, and status {status}")
    for failing in Failing.each(shim):
        got_status, got, said = run(program, lines, failing)
        if (got_status, got) == (status, usual):
            continue
        short += 1
        place = first_difference(got, usual)
        if place == len(got):
            if got_status not in (1, 2) or "emory" not in said:
                wrong.append(f"allocation {failing.at}: ended with status {got_status} and said {said!r}")
        elif got[place] != NO_MEMORY:
            wrong.append(f"allocation {failing.at}: {got[place]} for {usual[place]}")
        else:
            again = asked_again(program, lines, usual, place, failing)
            parts += again.is_part
            if not again.is_fine:
                wrong.append(f"allocation {failing.at}: line {place + 1}, asked again, is not answered as usual")
    if not short:
        wrong.append("no run found no memory: nothing was tried")
    name = os.path.basename(script)
    print(f"{name}: {failing.at - 1} allocations, {short} runs found no memory, {parts} of them in the middle of a 'run'; {len(wrong)} were wrong")
    for it in wrong[:10]:
        print(f"  {it}")
    return not wrong, parts
