"""Trials of bin/supervise --checkpoint-at, by which the history of a server is never full; and of a server without it."""

import json
import os
import re
import signal
import subprocess
import sys
import tempfile
import time

from sockets_parts import stopping
from sockets_parts.ends import SUPERVISE, Supervised
from trial_parts.patience import PATIENCE, until

# So many checkpoints, each with so many percent of what a history holds, and what comes behind them are more than it holds.
PERCENT, CHECKPOINTS = 50, 2
OPTION = ("--checkpoint-at", str(PERCENT))
# The actors: one that is in one turn until a method is replaced, one that posts to itself until then, and one that counts.
RUNS, POSTS, COUNTS = range(3)
AWAY = ("on ^true", "run [self on] whileTrue: [nil]. ^#done", "again self on ifTrue: [thisActor post: #again]. ^#done")
COUNT = ("add n isNil ifTrue: [n := 0]. n := n + 1. ^n", "total ^n")
TOTALS = '{"ok":{"posts":0,"steps":0}}\n'
FIRST, LATER = (re.compile(f"bin/supervise: {it} at ([0-9,]+) items") for it in ("a checkpoint", "([0-9,]+) checkpoints since, the last"))
# A server that turns away the first session, and refuses the first checkpoint of the second one. Replies come in two pieces.
ODD = """
import json, os, socket, sys
server = socket.socket(socket.AF_UNIX)
server.bind(sys.argv[-1])
server.listen()
os.chmod(sys.argv[-1], 0o600)
first, _ = server.accept()
first.sendall(b'{"error":"TooMany","what":"sessions"}\\n')
first.close()
status = b'{"ok":{"history":600000,"history_most":1000000,"sessions":2}}\\n'
checkpoints = [b'{"error":"NoMemory"}\\n', b'{"ok":{"posts":0,"steps":0}}\\n']
second, _ = server.accept()
lines = second.makefile("rb")
while checkpoints:
    reply = status if json.loads(lines.readline()) == {"cmd": "status"} else checkpoints.pop(0)
    second.sendall(reply[:9])
    second.sendall(reply[9:])
"""


def run_away(client, post):
    """Makes the actors, of which two go on."""
    client.make("Away", [], *AWAY)
    client.make("Count", ["n"], *COUNT)
    for name in ("Away", "Away", "Count"):
        client.actor(name)
    client.done(**post(RUNS, "run", [], 1, 1))
    client.done(**post(POSTS, "again", [], 1, 2))


def posted_meanwhile(client, post):
    """Posts to the one that counts until there were checkpoints enough, and installs a method behind each. Gives the number of posts."""
    ends, posted, least = time.monotonic() + PATIENCE, 0, {}
    while len(least) <= CHECKPOINTS:
        assert time.monotonic() < ends, f"{len(least) - 1} checkpoints came"
        reply = client.ask(**post(COUNTS, "add", [], 2, posted + 1))
        assert "ok" in reply or reply == {"error": "Full"}, reply
        posted += "ok" in reply
        status = client.done(cmd="status")
        if status["epoch"] not in least:
            client.done(cmd="method", **{"class": "Count"}, source=COUNT[1])
        least[status["epoch"]] = min(status["history"], least.get(status["epoch"], status["history_most"]))
        assert status["history"] < status["history_most"], status
        time.sleep(0.01)
    assert 100 * max(least.values()) < PERCENT * status["history_most"], f"the history is not emptied: {least}"
    return posted


def have_ended(client):
    """Whether each message has had its turn, which has answered."""
    actors = client.done(cmd="actors", **{"from": 0, "most": 9})["actors"]
    return all(it["accepted"] == it["begun"] and "answer" in it["phase"] for it in actors)


def told(said):
    """How many checkpoints are said, and at how many items."""
    items = FIRST.findall(said) + [items for _, items in LATER.findall(said)]
    count = len(FIRST.findall(said)) + sum(int(it.replace(",", "")) for it, _ in LATER.findall(said))
    return count, [int(it.replace(",", "")) for it in items]


def a_history_is_never_full(program, Server, post):
    """While actors make items without end, posts and edits are accepted, an edit ends the turn, and nothing is lost."""
    with tempfile.TemporaryDirectory() as folder:
        file = os.path.join(folder, "image")
        with Supervised(folder, PATIENCE, *OPTION, program, "serve", "--workers", "2", "--image", file) as them:
            with them.client(Server) as client:
                run_away(client, post)
                posted = posted_meanwhile(client, post)
                client.done(cmd="method", **{"class": "Away"}, source="on ^false")
                until(lambda: have_ended(client), "turns do not end behind the edit")
                assert client.done(cmd="status")["posts"] == posted + 2
            os.kill(them.process.pid, signal.SIGTERM)
            out, err, status = them.ended()
        assert (json.loads(out)["ok"]["posts"], status) == (posted + 2, 0), (out, err, status)
        assert f"bin/stop: the server has ended, and {file} is written\n" in err, err
        count, items = told(err)
        assert count >= CHECKPOINTS and all(PERCENT * 10_000 <= it < 1_000_000 for it in items), err
        lines = (post(COUNTS, "total", [], 3, 1), {"cmd": "run"}, {"cmd": "outcome", "actor": COUNTS, "turn": 1})
        words = [program, "script", "--image", file]
        run = subprocess.run(words, input="\n".join(map(json.dumps, lines)), capture_output=True, text=True, timeout=PATIENCE)
        assert run.stdout.splitlines()[-1] == json.dumps({"ok": {"answer": posted}}, separators=(",", ":")), (run, posted)


def without_the_option_there_is_none(program, Server, post):
    """No other session is there, and no checkpoint comes."""
    with tempfile.TemporaryDirectory() as folder:
        with Supervised(folder, PATIENCE, program, "serve", "--workers", "2") as them, them.client(Server) as client:
            run_away(client, post)
            first = client.done(cmd="status")
            until(lambda: 100 * client.done(cmd="status")["history"] > PERCENT * first["history_most"], "the history does not grow")
            last = client.done(cmd="status")
            assert (last["epoch"], last["sessions"]) == (first["epoch"], 1), (first, last)


def its_session_is_not_counted(program, Server, _post):
    """A server of one session ends behind that of another, and one that is stopped behind those of others, which alone are named."""
    for options in (["--sessions", "1"], ["--sessions=1"], []):
        with tempfile.TemporaryDirectory() as folder:
            with Supervised(folder, PATIENCE, *OPTION, program, "serve", "--workers", "1", *options) as them:
                with them.client(Server) as client:
                    until(lambda: client.done(cmd="status")["sessions"] == 2, "bin/supervise has no session")
                    if not options:
                        stop = stopping.Waiting(them.path)
                        stop.names_this_process()
                        assert client.done(cmd="status")["sessions"] == 2, "its session does not go on with those of others"
                if not options:
                    _, said = stop.process.communicate(timeout=PATIENCE)
                    assert (said, stop.process.returncode) == ("bin/stop: the server has ended\n", 0), said
                assert them.ended() == (TOTALS, "", 0)


def it_tries_again(_program, _Server, _post):
    """A session that is turned away and a checkpoint that is refused are told once, and tried again."""
    with tempfile.TemporaryDirectory() as folder, Supervised(folder, PATIENCE, *OPTION, sys.executable, "-c", ODD, "serve") as them:
        said = (
            "the history is not looked at: TooMany; it is tried again",
            "there is no checkpoint: NoMemory; it is tried again",
            "a checkpoint at 600,000 items",
        )
        ended = them.ended()
        assert ended == ("", "".join(f"bin/supervise: {it}\n" for it in said), 0), ended


def bad_percentages(program, _Server, _post):
    for word in ("0", "100", "x"):
        words = [SUPERVISE, "--checkpoint-at", word, program, "serve", "--socket", "s"]
        run = subprocess.run(words, capture_output=True, text=True, timeout=PATIENCE)
        assert (run.returncode, run.stdout) == (2, "") and "--checkpoint-at" in run.stderr, run


TRIALS = (a_history_is_never_full, without_the_option_there_is_none, its_session_is_not_counted, it_tries_again, bad_percentages)
