"""Trials of sessions: what they are answered, to the last byte, what ends them, and what the server tells of all in the end."""

import contextlib
import json
import os
import stat
import subprocess
import tempfile
import time

from common.repository import path_of_tool
from sockets_parts.resources import is_refused, threads
from trial_parts.patience import PATIENCE, until

CLOSE = b'{"actor":0,"cmd":"close"}'
NO_ACTOR = b'{"error":"UnknownActor"}\n'
TOO_MANY = b'{"error":"TooMany","what":"sessions"}\n'
OUTCOME = b'{"actor":0,"cmd":"outcome","turn":1}'
# Lines, and their replies.
SCRIPT = (
    (b'{"cmd":"define","name":"M","slots":[],"super":"Object"}', b'{"ok":{"version":1}}\n'),
    (b'{"class":"M","cmd":"method","source":"a ^3 + 4 * 2"}', b'{"ok":{"version":2}}\n'),
    (b'{"class":"M","cmd":"actor"}', b'{"ok":{"actor":0}}\n'),
    (b'{"actor":0,"args":[],"cmd":"post","selector":"a","sender":1,"seq":1}', b'{"ok":{"turn":1}}\n'),
    (b'{"cmd":"run"}', b'{"error":"BadCommand"}\n'),
)


def told(program, Server, workers, sessions, play):
    """What there was in all where clients play a part: posts, edits, steps, and the names of refusals. The edits are those of the
    image that is saved at the end; the server does not tell them."""
    with tempfile.TemporaryDirectory() as folder:
        file = os.path.join(folder, "image")
        with Server(program, sessions, workers, "--image", file) as server:
            play(server)
            totals, names = server.ended()
        check = subprocess.run([program, "check", file], capture_output=True, text=True, timeout=PATIENCE)
        return totals["posts"], json.loads(check.stdout)["ok"]["edits"], totals["steps"], names


def asked(client, line):
    """The reply to a line, to its last byte."""
    client.socket.sendall(line + b"\n")
    return client.lines.readline()


def is_admitted(server):
    """Whether a client gets a reply, and not a refusal since there are too many."""
    with server.client() as client:
        with contextlib.suppress(OSError):
            client.socket.sendall(CLOSE + b"\n")
        line = client.lines.readline()
        assert line in (NO_ACTOR, TOO_MANY), line
        return line == NO_ACTOR


def a_client_is_admitted(server):
    until(lambda: is_admitted(server), "no place is left for another session")


def a_post_is_answered(program, Server, _post):
    """A message is answered by a worker, and a run is no command here."""

    def play(server):
        rights = stat.S_IMODE(os.stat(server.path).st_mode)
        assert rights == 0o600, oct(rights)
        with server.client() as client:
            for line, wanted in SCRIPT:
                reply = asked(client, line)
                assert reply == wanted, (line, reply)
            ends = time.monotonic() + PATIENCE
            while (reply := asked(client, OUTCOME)) == b'{"error":"Pending"}\n':
                assert time.monotonic() < ends, "the turn does not end"
                time.sleep(0.001)
            assert reply == b'{"ok":{"answer":14}}\n', reply

    found = told(program, Server, 2, 1, play)
    assert found == (1, 2, 7, []), found


def a_long_line_ends_its_session(program, Server, _post):
    """9,000 bytes without an end are refused, and it is told."""

    def play(server):
        with server.client() as client:
            client.socket.sendall(b" " * 9000)
            assert client.lines.readline() == b'{"error":"TooLong"}\n'
            assert client.lines.readline() == b"", "no clean end comes behind a long line"

    found = told(program, Server, 1, 1, play)
    assert found == (0, 0, 0, ["TooLong"]), found


def one_place_is_kept_for_the_operator(program, Server, _post):
    """While 64 sessions are open one of the operator's is let in, and no second one. So are a workspace, bin/top and bin/status. Its
    end has a name that begins so."""
    names = (f"\0actorimage.operator.{number}.{os.getpid()}".encode() for number in range(2))
    with Server(program, 1000, 2) as server, contextlib.ExitStack() as all_of_them:
        for _ in range(64):
            assert asked(all_of_them.enter_context(server.client()), CLOSE) == NO_ACTOR
        with server.client(next(names)) as first:
            assert asked(first, CLOSE) == NO_ACTOR
            for late in (server.client(), server.client(next(names))):
                with late:
                    assert late.lines.readline() == TOO_MANY
        until(lambda: len(threads(server)) == 67, "the session of the operator goes on")
        for words, given in (
            (["workspace", "--socket", server.path], "3 + 4\n"),
            (["top", "--once", server.path, "Object.isNil"], ""),
            (["status", server.path], ""),
        ):
            run = subprocess.run([path_of_tool(words[0]), *words[1:]], input=given, capture_output=True, text=True, timeout=PATIENCE)
            assert run.returncode == 0, run
            until(lambda: len(threads(server)) == 67, f"the session of {words[0]} goes on")


def one_of_65_sessions_is_turned_away(program, Server, _post):
    """The 65th session is told so, and is let go; once one has ended there is place for another, and once all have."""

    def play(server):
        with contextlib.ExitStack() as all_of_them:
            clients = [all_of_them.enter_context(server.client()) for _ in range(64)]
            for client in clients:
                assert asked(client, CLOSE) == NO_ACTOR
            for is_hasty in (False, True):
                with server.client() as client:
                    if is_hasty:
                        with contextlib.suppress(BrokenPipeError):
                            client.send({"cmd": "run"})
                    assert client.lines.readline() == TOO_MANY
                    assert is_hasty or client.lines.readline() == b""
            assert asked(clients[0], CLOSE) == NO_ACTOR
            clients[0].leave()
            a_client_is_admitted(server)
            for client in clients[1:]:
                client.leave()
        a_client_is_admitted(server)

    found = told(program, Server, 1, 66, play)
    assert found == (0, 0, 0, []), found


def sessions_that_end_badly_leave_their_places(program, Server, _post):
    """As many clients as there may not be at once send a line that is no text, one after another, and there is place for another
    still. What they have sent behind that line does not spoil the end."""

    def play(server):
        for _ in range(70):
            with server.client() as client:
                client.socket.sendall(b"\xff\n" + b" " * 19_998)
                assert client.lines.readline() == b'{"error":"BadCommand"}\n'
                assert client.lines.readline() == b"", "no clean end comes behind a bad line"
        a_client_is_admitted(server)

    found = told(program, Server, 1, 71, play)
    assert found == (0, 0, 0, ["BadCommand"] * 70), found


def clients_behind_the_last_are_refused(program, Server, _post):
    """Once the last session has begun nobody can connect, at once and not at the end; that session goes on."""

    def play(server):
        with server.client() as client, contextlib.ExitStack() as others:
            assert asked(client, CLOSE) == NO_ACTOR
            until(lambda: is_refused(server, others), "clients behind the last one can connect")
            assert asked(client, CLOSE) == NO_ACTOR

    found = told(program, Server, 1, 1, play)
    assert found == (0, 0, 0, []), found


TRIALS = (
    a_post_is_answered,
    a_long_line_ends_its_session,
    one_of_65_sessions_is_turned_away,
    one_place_is_kept_for_the_operator,
    sessions_that_end_badly_leave_their_places,
    clients_behind_the_last_are_refused,
)
