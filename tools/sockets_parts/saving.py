"""Trials of saves of a served image: several at once beside posts, those that wait for others, and bin/save."""

import contextlib
import fcntl
import functools
import json
import os
import socket
import subprocess
import sys
import tempfile
import termios
import threading
import time

from common.repository import path_of_tool
from sockets_parts import stopping
from sockets_parts.resources import sleeps, unread
from sockets_parts.together import run_together
from trial_parts.patience import PATIENCE, until

SAVE = path_of_tool("save")
# How many sessions save and how many post, 64 together, and how often each of them does.
SAVERS, POSTERS, SAVES, POSTS = 16, 48, 4, 40
# A save is long that takes so many seconds; then what comes in the midst of it can be told from what comes behind it.
LONG, ROUNDS = 0.2, 3
LINK = "fill | i | i := 0. [i < 400] whileTrue: [Link new. i := i + 1]. ^i"


def image_in(file):
    with open(file, "rb") as it:
        return json.loads(it.read())


@contextlib.contextmanager
def served(program, Server, sessions, workers=2):
    """A server that keeps its image in a file, and the path of that."""
    with tempfile.TemporaryDirectory() as folder:
        file = os.path.join(os.path.realpath(folder), "image")
        with Server(program, sessions, workers, "--image", file) as server:
            yield server, file


class Stage:
    """What the sessions know of one another: the last number of each sender that was accepted, and how many actors there are."""

    def __init__(self, server, post, file):
        self.server, self.post, self.file = server, post, file
        self.accepted = {sender: 0 for sender in range(1, POSTERS + 1)}
        self.actors, self.is_over = 1, False
        self.saved, self.seen = 0, []

    def posts(self, sender, client):
        for seq in range(1, POSTS + 1):
            turn = client.done(**self.post(0, "a", [], sender, seq))["turn"]
            self.accepted[sender] = seq
            client.wait(0, turn)

    def saves(self, client):
        """What was answered before a save is in the file behind it."""
        for _ in range(SAVES):
            self.actors = max(self.actors, client.actor("M") + 1)
            actors, accepted = self.actors, dict(self.accepted)
            assert client.done(cmd="save")["bytes"] > 0
            self.saved += 1
            image = image_in(self.file)
            assert len(image["actors"]) >= actors, (len(image["actors"]), actors)
            assert len(image["edits"]) == 2, image["edits"]
            found = dict(image["senders"])
            assert all(found.get(sender, 0) >= last for sender, last in accepted.items()), (found, accepted)

    def watch(self):
        """Looks all the time at the file, whose image is never an older one than before, and at the new files that are open."""
        actors = 0
        while not self.is_over:
            self.seen.append(new_files(self.server.process.pid))
            with contextlib.suppress(FileNotFoundError):
                count = len(image_in(self.file)["actors"])
                assert count >= actors, f"a file with {actors} actors was replaced by one with {count}"
                actors = count


def open_files(process, kept):
    """The new files beside an image's that a process has open, by their numbers in the file system; none where it has ended. Each is kept
    open here too, so that no other one gets its number meanwhile."""
    folder, found = f"/proc/{process}/fd", set()
    with contextlib.suppress(OSError):
        for number in os.listdir(folder):
            with contextlib.suppress(OSError):
                copy = os.open(f"{folder}/{number}", os.O_PATH)
                kept.callback(os.close, copy)
                if os.readlink(f"/proc/self/fd/{copy}").removesuffix(" (deleted)").endswith(".new"):
                    found.add(os.fstat(copy).st_ino)
    return found


def new_files(process):
    """How many of them are open at a time: the same ones as two looks see them, since one look may see a file before it is moved, and then
    the next."""
    with contextlib.ExitStack() as kept:
        found = open_files(process, kept)
        while len(found) > 1 and found != (again := open_files(process, kept)):
            found = again
    return len(found)


def saves_among_posts(program, Server, post):
    """Sessions save at once, and others post, beside four workers: each save is answered, each post is accepted and done, and the file is
    newer with each save."""
    with served(program, Server, SAVERS + POSTERS + 1, workers=4) as (server, file):
        with server.client() as client:
            client.make("M", [], "a ^3 + 4 * 2")
            assert client.actor("M") == 0
        stage, wrong = Stage(server, post, file), []

        def watch():
            try:
                stage.watch()
            except BaseException as error:
                wrong.append(repr(error))

        watcher = threading.Thread(target=watch)
        watcher.start()
        run_together(server, *[functools.partial(stage.posts, it) for it in stage.accepted], *[stage.saves] * SAVERS)
        totals, names = server.ended()
        stage.is_over = True
        watcher.join()
        assert not wrong, wrong
        assert set(stage.seen) <= {0, 1} and 1 in stage.seen, set(stage.seen)
        assert stage.saved == SAVERS * SAVES and totals["posts"] == POSTERS * POSTS and names == [], (stage.saved, totals, names)
        image = image_in(file)
        assert image["senders"] == [[it, POSTS] for it in range(1, POSTERS + 1)] and len(image["actors"]) == stage.saved + 1


def seconds_of_a_save(client):
    """What a save takes that is not long, or the least of three that are: on a busy machine some are."""
    taken = []
    while len(taken) < 3 and (not taken or taken[-1] >= LONG):
        began = time.monotonic()
        client.done(cmd="save")
        taken.append(time.monotonic() - began)
    return min(taken)


def is_copied_behind(seconds, file, one, two, other):
    """Whether a save that waits for another one saves what came in between; None where the first one ended too soon to tell: the file was
    replaced by then. It is kept open, so that no other one gets its number. A save takes so many seconds."""
    with open(file, "rb") as before:
        one.send({"cmd": "save"})
        time.sleep(0.2 * seconds)
        two.send({"cmd": "save"})
        time.sleep(0.3 * seconds)
        number = other.actor("M")
        is_told = os.path.samestat(os.fstat(before.fileno()), os.stat(file))
    assert one.reply()["ok"] and two.reply()["ok"]
    return len(image_in(file)["actors"]) > number if is_told else None


def saves_take_turns(program, Server, post):
    """A save that waits for another one copies nothing before: what was answered while it waited is in its file."""
    with served(program, Server, 3) as (server, file), contextlib.ExitStack() as clients:
        one, two, other = (clients.enter_context(server.client()) for _ in range(3))
        one.make("Link", [])
        one.make("M", [], LINK)
        while (seconds := seconds_of_a_save(one)) < LONG:
            for seq in range(1, 21):
                number = one.actor("M")
                turn = one.done(**post(number, "fill", [], 1, 1_000 * number + seq))["turn"]
                assert one.wait(number, turn) == {"ok": {"answer": 400}}
        found = []
        # On a busy machine few saves end late enough to tell.
        while found.count(True) < ROUNDS and len(found) < 20 * ROUNDS:
            found.append(is_copied_behind(seconds, file, one, two, other))
            assert found[-1] is not False, "a save that waited has left out what came meanwhile"
        clients.close()
        assert server.ended()[1] == []


def saved_by_the_tool(program, Server, _post):
    """bin/save prints the bytes, also while 64 sessions are open, and says why nothing was saved."""
    with served(program, Server, 1000) as (server, file), contextlib.ExitStack() as others:
        client = others.enter_context(server.client())
        client.make("M", [])
        for _ in range(63):
            others.enter_context(server.client()).ask(cmd="run")
        saved = asked(server.path, "--seconds", "60")
        assert (saved.stdout, saved.stderr, saved.returncode) == (f"{os.path.getsize(file)}\n", "", 0), saved
        assert [it["define"]["name"] for it in image_in(file)["edits"]] == ["M"]
        os.utime(file, (0, 0))
        refused = asked(server.path)
        assert (refused.stdout, refused.returncode) == ("", 1) and refused.stderr.startswith("bin/save: WriteFault: "), refused
        said = f"actorimage: the image is not saved: {file} was changed by another process, and is NOT replaced\n"
        assert server.process.stderr.readline() == said
    with Server(program, 1, 1) as server:
        none = asked(server.path)
        said = "bin/save: BadArguments: the server was started without --image, so it has no file to save in\n"
        assert (none.stdout, none.stderr, none.returncode) == ("", said, 1), none
        path = server.path
    none = asked(path)
    assert (none.stderr, none.returncode) == (f"bin/save: no server listens at {path} (No such file or directory)\n", 1), none
    with tempfile.TemporaryDirectory() as folder, socket.socket(socket.AF_UNIX) as listener:
        listener.bind(os.path.join(folder, "socket"))
        listener.listen()
        silent = asked(os.path.join(folder, "socket"), "--seconds", "0.2")
        assert (silent.stdout, silent.returncode) == ("", 1) and "timed out" in silent.stderr, silent


def bytes_in(pipe):
    """How many bytes a pipe has that nobody has read."""
    return int.from_bytes(fcntl.ioctl(pipe, termios.FIONREAD, bytes(4)), sys.byteorder)


def refused_saves_that_nobody_reads(program, Server, _post):
    """Where nobody reads why a save was refused, and there is room for no more of it, at most one session waits that was to say it: others
    save, and are told."""
    with served(program, Server, 3) as (server, file), contextlib.ExitStack() as stack:
        clients = [stack.enter_context(server.client()) for _ in range(3)]
        # The least that a pipe holds.
        room = fcntl.fcntl(server.process.stderr, fcntl.F_SETPIPE_SZ, 4096)
        clients[0].done(cmd="save")
        os.utime(file, (0, 0))
        said = len(f"actorimage: the image is not saved: {file} was changed by another process, and is NOT replaced\n".encode())
        asked = [2 * room // said, 3, 3]
        clients[0].send(*[{"cmd": "save"}] * asked[0])
        until(lambda: bytes_in(server.process.stderr) + said > room, "not all that is said is written")
        for client, count in zip(clients[1:], asked[1:]):
            client.send(*[{"cmd": "save"}] * count)

        def are_told():
            """The sessions of which each save is answered."""
            return [it for it, count in zip(clients, asked) if unread(it).count(b"\n") == count]

        until(lambda: len(are_told()) >= 2, "more than one session waits")
        assert all(set(unread(it).splitlines()) == {b'{"error":"WriteFault"}'} for it in are_told()), "a save is not refused"
        stack.close()
        out, err = server.process.communicate(timeout=PATIENCE)
        assert out == '{"ok":{"posts":0,"steps":0}}\n' and "the image is not saved" in err, (out, err)


def stopped_behind_a_save(program, Server, _post):
    """Whether the end has saved the image is told by bin/stop also where sessions save while it waits for them."""
    for is_in_the_way in (False, True):
        with served(program, Server, 1000) as (server, file), server.client() as client:
            client.make("M", [])
            stop = stopping.Waiting(server.path)
            stop.names_this_process()
            saved = client.done(cmd="save")["bytes"]
            client.make("N", [])
            if is_in_the_way:
                os.remove(file + ".new")
                os.mkdir(file + ".new")
            # The tool looks at the file now and then, and sleeps between two looks.
            before = sleeps(stop.pid, stop.pid)
            until(lambda: sleeps(stop.pid, stop.pid) > before + 10, "the tool does not look at the file")
            client.leave()
            told = f"and its image is NOT saved: {file} is as it was before" if is_in_the_way else f"and {file} is written"
            ended = stop.ended()
            assert ended == (f"bin/stop: the server has ended, {told}\n", int(is_in_the_way)), ended
            assert (os.path.getsize(file) == saved) is is_in_the_way


def asked(*words):
    return subprocess.run([SAVE, *words], capture_output=True, text=True, timeout=PATIENCE)


TRIALS = (saves_among_posts, saves_take_turns, saved_by_the_tool, refused_saves_that_nobody_reads, stopped_behind_a_save)
