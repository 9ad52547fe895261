"""Trials on the image file of a server."""

import contextlib
import json
import os
import socket
import subprocess
import time

from common import sockets
from inspect_trials.try_common import FILES, bad_files, good_files, read
from inspect_trials.written import file_text
from trial_parts.patience import PATIENCE

from .loaded import Loaded
from .program import Different, Ended, refusal, same

POST = {"actor": 0, "args": [], "cmd": "post", "selector": "a", "sender": 1, "seq": 2}
# How sessions end: the second one is refused, which is not the end of the server.
SESSIONS = (b"", b"\xff\n")


def words(program, file, sessions=1, name="socket"):
    return "serve", "--workers", "2", "--image", file, "--sessions", str(sessions), "--socket", program.at(name)


def not_begun(program, about, file, name, why="", socket_name="socket", **more):
    """A server ends by a refusal of this name, with these words behind it, and nobody is served."""
    ended = program.run(*words(program, file, name=socket_name), **more)
    same(f"{about}: a server", ended, refusal(name, why))


@contextlib.contextmanager
def begun(program, file, sessions=1, name="socket", **more):
    """A server, which is killed where it is left, unless it has ended by then."""
    command = [program.path, *words(program, file, sessions, name)]
    with subprocess.Popen(command, stdout=subprocess.PIPE, stderr=subprocess.PIPE, **more) as server:
        try:
            yield server
        finally:
            server.kill()


def serve(program, file, talk, sessions=1, name="socket", **more):
    """The end of a server for so many sessions, each of which is talked over its socket."""
    with begun(program, file, sessions, name, **more) as server:
        for number in range(sessions):
            with connected(server, program.at(name)) as end, end.makefile("rb") as lines:
                talk(number, end, lines)
                end.shutdown(socket.SHUT_WR)
                lines.read()
        out, err = server.communicate(timeout=PATIENCE)
    return Ended(server.returncode, out, err)


def connected(server, path):
    """A socket's end, once the server listens."""
    ends = time.monotonic() + PATIENCE
    while True:
        try:
            return sockets.connected(path, PATIENCE)
        except OSError:
            if server.poll() is not None or time.monotonic() > ends:
                raise
            time.sleep(0.01)


def ask(end, lines, command):
    end.sendall(json.dumps(command).encode() + b"\n")
    return json.loads(lines.readline())


def wait(end, lines, turn):
    """How a turn of actor 0 ends."""
    ends = time.monotonic() + PATIENCE
    while (told := ask(end, lines, {"actor": 0, "cmd": "outcome", "turn": turn})) == {"error": "Pending"}:
        if time.monotonic() > ends:
            raise Different(f"turn {turn} does not end")
    return told


def served(program):
    """A server goes on from the file, does what is pending, and saves what came of it when its sessions have ended."""
    path = program.put("file", read(good_files()["message-waits"]))
    model = Loaded(json.loads(read(path)))

    def talk(number, end, lines):
        if number == 0:
            same("a post", ask(end, lines, POST), {"ok": {"turn": 2}})
            for turn in (1, 2):
                same("a turn", wait(end, lines, turn), {"ok": {"answer": 14}})
        end.sendall(SESSIONS[number])

    ended = serve(program, path, talk, len(SESSIONS))
    same("server", ended, Ended(0, b'{"ok":{"posts":1,"steps":14}}\n', b"session: BadCommand\n"))
    model.reply(POST)
    model.reply({"cmd": "run"})
    same("what is saved", read(path), file_text(model.file()).encode())
    same("files in the folder", os.listdir(program.folder), ["file"])
    return f"{len(SESSIONS)} sessions"


def new_one(program):
    """Without a file the image is new; its file is that of the same lines in a script."""
    commands = [json.loads(line) for line in read(os.path.join(FILES, "message-waits.jsonl")).splitlines()]

    def talk(number, end, lines):
        for command in commands:
            same(f"{command}", "ok" in ask(end, lines, command), True)
        wait(end, lines, 1)

    path = program.at("file")
    same("server", serve(program, path, talk), Ended(0, b'{"ok":{"posts":1,"steps":7}}\n', b""))
    scripted = program.at("script")
    program.replies("script", scripted, [json.dumps(it).encode() for it in [*commands, {"cmd": "run"}]])
    same("what is saved", read(path), read(scripted))
    return "1 session"


def not_served(program):
    """A malformed file, a folder and a path at which no socket can be made end the server, and stay."""
    for path in bad_files():
        data = read(path)
        file = program.put("file", data)
        not_begun(program, path, file, "BadImage")
        same(f"{path}: the file", read(file), data)
    os.mkdir(program.at("folder"))
    not_begun(program, "a folder as the file", program.at("folder"), "ReadFault", f"{program.at('folder')} is a folder")
    same("files in the folder", sorted(os.listdir(program.folder)), ["file", "folder"])
    data = read(good_files()["message-waits"])
    file = program.put("file", data)
    not_begun(program, "a folder at the socket's path", file, "ReadFault", f"{program.at('folder')} is there already", "folder")
    same("a folder at the socket's path: the file", read(file), data)
    same("files in the folder", sorted(os.listdir(program.folder)), ["file", "folder"])
    return f"{len(bad_files()) + 2} files"


TRIALS = (served, new_one, not_served)
