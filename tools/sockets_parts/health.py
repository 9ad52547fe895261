"""Trials of bin/status, by which it is seen whether a server answers, and how its image does."""

import contextlib
import re
import subprocess
import time

from common.repository import path_of_tool
from trial_parts.patience import PATIENCE

STATUS = path_of_tool("status")
LATE = "bin/status: timed out\n"
METRIC = re.compile(r"# HELP (\w+) .+\n# TYPE \1 (gauge|counter)\n\1 ([0-9]+)")


def asked(*words):
    """What the tool tells. It gives up after ten seconds, which a busy machine may take."""
    ends = time.monotonic() + PATIENCE
    while (told := subprocess.run([STATUS, *words], capture_output=True, text=True, timeout=PATIENCE)).stderr == LATE:
        assert time.monotonic() < ends, told
    return told


def numbers_are_told(program, Server, post):
    """A line for each number of `status`, in its order, and a metric for each; also while 64 sessions are open. Where nobody listens, it
    is said."""
    with Server(program, 1000, 2) as server, contextlib.ExitStack() as others:
        client = others.enter_context(server.client())
        client.make("A", [], "a ^1")
        client.done(**post(client.actor("A"), "a", [], 1, 1))
        client.wait(0, 1)
        for _ in range(63):
            others.enter_context(server.client()).ask(cmd="run")
        status = {name: number for name, number in client.done(cmd="status").items() if name != "epoch"}
        status["sessions"] += 1
        plain = asked(server.path)
        assert (plain.stdout, plain.stderr, plain.returncode) == ("".join(f"{it} {status[it]}\n" for it in status), "", 0), plain
        metrics = asked("--prometheus", server.path)
        found = METRIC.findall(metrics.stdout)
        assert len(METRIC.sub("", metrics.stdout).strip()) == 0 and metrics.returncode == 0, metrics
        names = {f"actorimage_{it}_total" if it in ("posts", "steps") else f"actorimage_{it}": str(status[it]) for it in status}
        assert {name: number for name, _, number in found} == names, metrics
        assert {name for name, kind, _ in found if kind == "counter"} == {"actorimage_posts_total", "actorimage_steps_total"}
        path = server.path
    none = asked(path)
    said = f"bin/status: no server listens at {path} (No such file or directory)\n"
    assert (none.stdout, none.stderr, none.returncode) == ("", said, 1), none


TRIALS = (numbers_are_told,)
