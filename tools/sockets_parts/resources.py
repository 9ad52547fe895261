"""Trials of what a server takes: its threads, the processor while nothing is to be done, descriptors, and its places for sessions."""

import contextlib
import ctypes
import json
import os
import select
import socket
import subprocess
import tempfile
import time

from trial_parts.client import await_socket
from trial_parts.patience import PATIENCE, until

MAKING = "a ^3 + 4 * 2"
ENDLESS = "spin [true] whileTrue: [nil]"
# The descriptors that a server has where they are few, and the number of the system's call that copies one of a process.
DESCRIPTORS, PIDFD_GETFD = 12, 438
# The longest wait of the protocol, in milliseconds.
LONGEST_WAIT = 60_000
# So many seconds a server may take to come to rest.
RESTS = 60
LONG = "count: n | i | i := 0. [i < n] whileTrue: [i := i + 1]. ^i"


def threads(server):
    return os.listdir(f"/proc/{server.process.pid}/task")


def ticks(server):
    """How many ticks of a clock the server has run."""
    with open(f"/proc/{server.process.pid}/stat", encoding="ascii") as it:
        fields = it.read().rpartition(") ")[2].split()
    return int(fields[11]) + int(fields[12])


def rests(server):
    """Whether the server comes to do nothing for a second. One that does not rest never does."""
    ends = time.monotonic() + RESTS
    while time.monotonic() < ends:
        before = ticks(server)
        time.sleep(1)
        if ticks(server) <= before + 5:
            return True
    return False


def begin_endless(client, post):
    """Begins a turn that does not end."""
    client.make("M", [], ENDLESS)
    client.send(post(client.actor("M"), "spin", [], 1, 1))
    assert client.reply() == {"ok": {"turn": 1}}


def sleeps(process, thread):
    """How often a thread of a process went to sleep."""
    with open(f"/proc/{process}/task/{thread}/status", encoding="ascii") as it:
        return next(int(line.split()[1]) for line in it if line.startswith("voluntary_ctxt_switches"))


def each_worker_has_a_thread(program, Server, _post):
    for workers in (1, 4, 16):
        with Server(program, 1, workers) as server:
            until(lambda: len(threads(server)) == workers + 1, f"{workers} workers have {len(threads(server)) - 1} threads")
            with server.client():
                pass
            assert server.ended() == ({"posts": 0, "steps": 0}, [])


def idle_workers_sleep(program, Server, _post):
    with Server(program, 1, 16) as server:
        until(lambda: len(threads(server)) == 17, "16 workers have no thread each")
        assert rests(server), "workers with nothing to do run"


def others_sleep_beside_a_busy_worker(program, Server, post):
    """Of four workers one takes the quanta of a turn that does not end. The others have nothing to do, and take no processor."""
    with Server(program, 1, 4) as server:
        with server.client() as client:
            begin_endless(client, post)
            time.sleep(0.5)
            before, began = ticks(server), time.monotonic()
            time.sleep(1)
            run, lasted = ticks(server) - before, time.monotonic() - began
            assert run < 1.3 * lasted * os.sysconf("SC_CLK_TCK"), f"{run} ticks in {lasted:.2f} seconds"
        server.ended()


def idle_sessions_sleep(program, Server, _post):
    """A session looks some times for the next line before it sleeps for it, and no longer."""
    with Server(program, 16) as server, contextlib.ExitStack() as stack:
        for client in [stack.enter_context(server.client()) for _ in range(16)]:
            assert client.ask(cmd="outcome", actor=0, turn=1) == {"error": "UnknownActor"}
        assert rests(server), "sessions with nothing to do run"


def a_post_wakes_one(program, Server, post):
    """16 workers of which all wake at each post go to sleep 16 times as often as posts are made. How often the thread of the session does
    so depends on how long turns take."""
    with Server(program, 1, 16) as server:
        until(lambda: len(threads(server)) == 17, "16 workers have no thread each")
        workers, process = set(threads(server)) - {str(server.process.pid)}, server.process.pid
        with server.client() as client:
            client.make("M", [], MAKING)
            actor = client.actor("M")
            epoch = client.done(cmd="status")["epoch"]
            assert rests(server), "workers with nothing to do run"
            before = sum(sleeps(process, it) for it in workers)
            for seq in range(1, 501):
                client.send(post(actor, "a", [], 1, seq))
                assert client.reply() == {"ok": {"turn": seq}}
                assert client.done(cmd="wait", actor=actor, epoch=epoch, ms=LONGEST_WAIT, turn=seq) == {"answer": 14}
            woken = sum(sleeps(process, it) for it in workers) - before
        assert woken < 6000, f"workers went to sleep {woken} times for 500 posts"


def a_turn_without_end_ends_with_the_server(program, Server, post):
    with Server(program, 1, 2) as server:
        with server.client() as client:
            begin_endless(client, post)
        totals, names = server.ended()
        assert totals["posts"] == 1 and names == [], (totals, names)


def quanta_are_long(program, Server, post):
    """A turn of more steps than the history has items."""
    with Server(program, 1, 2) as server, server.client() as client:
        client.make("M", [], LONG)
        actor = client.actor("M")
        client.send(post(actor, "count:", [400_000], 1, 1))
        assert client.reply() == {"ok": {"turn": 1}}
        assert client.wait(actor, 1) == {"ok": {"answer": 400_000}}


def sessions_leave_nothing(program, Server, _post):
    """300 sessions one after another, of which every third ends by a refusal."""
    with Server(program, 300, 2) as server:
        for number in range(300):
            with server.client() as client:
                if number == 1:
                    until(lambda: len(threads(server)) == 4, "a session has no thread of its own, or one that has ended has one")
                if number % 3 == 0:
                    client.socket.sendall(b"\xff\n")
                    assert client.lines.readline() == b'{"error":"BadCommand"}\n' and client.lines.readline() == b""
                else:
                    assert client.ask(cmd="close", actor=0) == {"error": "UnknownActor"}
        assert server.ended() == ({"posts": 0, "steps": 0}, ["BadCommand"] * 100)


def what_comes_behind_a_bad_line_is_drained(program, Server, _post):
    with Server(program, 1, 1) as server:
        with server.client() as client:
            client.socket.sendall(b"\xff\n" + b"x" * 20_000)
            assert client.lines.readline() == b'{"error":"BadCommand"}\n'
            assert client.lines.readline() == b"", "no clean end comes behind a bad line"
        assert server.ended()[1] == ["BadCommand"]


def is_refused(server, clients):
    """Whether nobody can connect any more. Whoever can is one more of the clients."""
    try:
        clients.enter_context(server.client())
    except ConnectionRefusedError:
        return True
    return False


def few_descriptors(program, Server, _post):
    """Where descriptors run out a client waits, and is let in when others have left. It is said once, and the server goes on."""
    with tempfile.TemporaryDirectory() as folder:
        image = os.path.join(folder, "image")
        server = Server(program, 31, 2, "--image", image)
        server.words = ["prlimit", f"--nofile={DESCRIPTORS}", *server.words]
        with server:
            for _ in range(2):
                with contextlib.ExitStack() as clients:
                    first = clients.enter_context(server.client())
                    assert first.ask(cmd="run") == {"error": "BadCommand"}
                    more = [clients.enter_context(server.client()) for _ in range(DESCRIPTORS)]
                    for client in more:
                        client.send({"cmd": "run"})
                    until(lambda: unread(more[0]), "nobody is let in")
                    assert rests(server), "a server runs while it has no descriptors"
                    assert not unread(more[-1]), "the server has more descriptors than it may"
                    assert first.ask(cmd="run") == {"error": "BadCommand"}
                    first.leave()
                    for client in more:
                        assert client.reply() == {"error": "BadCommand"}
                        client.leave()
            with contextlib.ExitStack() as clients:
                for number in range(5):
                    clients.enter_context(server.client()).make(f"M{number}", [])
            out, err = server.process.communicate(timeout=PATIENCE)
            said = "actorimage: nobody can be let in for now: Too many open files (os error 24)\n"
            assert (server.process.returncode, out, err) == (0, '{"ok":{"posts":0,"steps":0}}\n', said), (out, err)
        check = subprocess.run([program, "check", image], capture_output=True, text=True, timeout=PATIENCE)
        assert json.loads(check.stdout)["ok"] == {"actors": 0, "classes": 13, "edits": 5}, check


def unread(client):
    """What has come to a client, who does not read it."""
    if select.select([client.socket], [], [], 0)[0]:
        return client.socket.recv(1 << 16, socket.MSG_PEEK)
    return b""


def listener_of(server):
    """A copy of the socket at which a server listens; None where that may not be had."""
    process, descriptors = os.pidfd_open(server.process.pid), f"/proc/{server.process.pid}/fd"
    try:
        for name in os.listdir(descriptors):
            if not os.readlink(f"{descriptors}/{name}").startswith("socket:"):
                continue
            copied = ctypes.CDLL(None).syscall(PIDFD_GETFD, process, int(name), 0)
            if copied < 0:
                return None
            end = socket.socket(fileno=copied)
            if end.getsockopt(socket.SOL_SOCKET, socket.SO_ACCEPTCONN):
                return end
            end.close()
        return None
    finally:
        os.close(process)


def a_listener_that_fails(program, Server, _post):
    """Where accepting fails nobody can connect any more, the image is saved once the sessions have ended, and the server is refused."""
    with tempfile.TemporaryDirectory() as folder:
        image = os.path.join(folder, "image")
        with Server(program, 1000, 2, "--image", image) as server, contextlib.ExitStack() as clients:
            first = clients.enter_context(server.client())
            first.make("M", [])
            listener = listener_of(server)
            if listener is None:
                return
            with listener:
                listener.shutdown(socket.SHUT_RDWR)
            until(lambda: is_refused(server, clients), "clients can connect where accepting fails")
            assert first.ask(cmd="run") == {"error": "BadCommand"}
            clients.close()
            out, err = server.process.communicate(timeout=PATIENCE)
            assert (server.process.returncode, err) == (1, "actorimage: ReadFault\n"), (server.process.returncode, out, err)
            assert json.loads(out)["ok"] == {"posts": 0, "steps": 0}, out
            assert not os.path.exists(server.path), "the socket's file is still there"
        check = subprocess.run([program, "check", image], capture_output=True, text=True, timeout=PATIENCE)
        assert json.loads(check.stdout)["ok"] == {"actors": 0, "classes": 9, "edits": 1}, check


def a_moved_socket_ends_the_server(program, Server, _post):
    """A server whose socket's file is at its path no more lets in nobody, as it sees at the next client, and ends well. Its sessions go
    on meanwhile."""
    with Server(program, 1000, 2) as server, server.client() as client:
        assert client.ask(cmd="run") == {"error": "BadCommand"}
        path, server.path = server.path, server.path + "2"
        os.rename(path, server.path)
        with server.client() as late:
            assert late.lines.read() == b"", "a client is let in at a socket that was moved"
        with contextlib.ExitStack() as clients:
            until(lambda: is_refused(server, clients), "clients can connect behind the end")
        assert client.ask(cmd="run") == {"error": "BadCommand"}
        client.leave()
        os.remove(server.path)
        assert server.ended() == ({"posts": 0, "steps": 0}, [])


def a_server_says_what_it_does(program, Server, _post):
    """With --verbose standard error has what is served, and each session that ends by a refusal, as it ends."""
    with Server(program, 3, 2, "--verbose") as server:
        assert server.process.stderr.readline() == f"actorimage: serving {server.path}, 0 actors, 8 classes\n"
        for data, name in ((b"\xff\n", "BadCommand"), (b" " * 8193, "TooLong")):
            with server.client() as client:
                client.socket.sendall(data)
                assert server.process.stderr.readline() == f"actorimage: a session has ended: {name}\n"
        with server.client():
            pass
        assert server.ended() == ({"posts": 0, "steps": 0}, ["BadCommand", "TooLong"])


def errors_that_nobody_reads(program, Server, _post):
    """With --verbose sessions come and go though nobody reads what standard error has of them, once there is room for no more."""
    with Server(program, 1_000_000, 2, "--verbose") as server:
        for _ in range(2000):
            with server.client() as client:
                client.socket.sendall(b"\xff\n")
                # Whoever has read the end of a session finds its place free.
                assert client.lines.read() == b'{"error":"BadCommand"}\n'
        with server.client() as client:
            assert client.ask(cmd="run") == {"error": "BadCommand"}
        until(lambda: len(threads(server)) < 20, "sessions wait until somebody reads", RESTS)


def another_servers_socket_stays(program, Server, _post):
    """A server takes away the file that it made, and not one that another server has made at the same path since."""
    with Server(program, 1, 1) as first:
        client = first.client()
        # It is let in while the file is there.
        assert client.ask(cmd="run") == {"error": "BadCommand"}
        os.remove(first.path)
        with Server(program, 1, 1) as second:
            os.link(second.path, first.path)
            client.leave()
            first.process.communicate(timeout=PATIENCE)
            assert os.path.exists(first.path), "the end of a server takes away the socket of another"
            os.remove(first.path)


def full_output(program, Server, _post):
    """An output that takes nothing is a refusal, and the socket's file is taken away all the same."""
    if not os.path.exists("/dev/full"):
        return
    with Server(program, 1, 1) as other, open("/dev/full", "w", encoding="ascii") as full:
        path = other.path + "2"
        words = [program, "serve", "--workers", "1", "--sessions", "1", "--socket", path]
        process = subprocess.Popen(words, stdout=full, stderr=subprocess.PIPE, text=True)
        assert await_socket(process, path), "no socket is made"
        other.path = path
        other.client().leave()
        said = "actorimage: WriteFault\nstandard output: No space left on device\n"
        assert (process.communicate(timeout=PATIENCE)[1], process.returncode) == (said, 1)
        assert not os.path.exists(path), "the socket's file is still there"


TRIALS = (
    each_worker_has_a_thread,
    idle_workers_sleep,
    others_sleep_beside_a_busy_worker,
    idle_sessions_sleep,
    a_post_wakes_one,
    a_turn_without_end_ends_with_the_server,
    quanta_are_long,
    sessions_leave_nothing,
    what_comes_behind_a_bad_line_is_drained,
    few_descriptors,
    a_listener_that_fails,
    a_moved_socket_ends_the_server,
    a_server_says_what_it_does,
    errors_that_nobody_reads,
    another_servers_socket_stays,
    full_output,
)
