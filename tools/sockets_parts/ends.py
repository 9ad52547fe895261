"""Trials of how a server is ended: by bin/stop, where others have all the places, and by bin/supervise; and of the units that do it."""

import contextlib
import os
import re
import shlex
import shutil
import signal
import socket
import subprocess
import tempfile
import time

from common.repository import TOP, path_of_tool
from sockets_parts import stopping
from trial_parts.client import await_socket
from trial_parts.patience import PATIENCE

SUPERVISE = path_of_tool("supervise")
PLACES = 64
UNITS = ("actorimage.service", "actorimage-save.timer", "actorimage-save.service")


def without_a_number(Server, program, *options):
    """A server that is started without --sessions."""
    server = Server(program, 1)
    server.words = [program, "serve", "--workers", "1", *options, "--socket"]
    return server


def checked(program, file):
    return subprocess.run([program, "check", file], capture_output=True, text=True, timeout=PATIENCE).stdout


def stopped_where_all_places_are_taken(program, Server, _post):
    """bin/stop waits for a place where others have all, and for their ends, as it says."""
    with tempfile.TemporaryDirectory() as folder, contextlib.ExitStack() as others:
        file = os.path.join(folder, "image")
        with without_a_number(Server, program, "--image", file) as server:
            clients = [others.enter_context(server.client()) for _ in range(PLACES)]
            for client in clients:
                assert client.ask(cmd="close", actor=0) == {"error": "UnknownActor"}
            clients[0].make("M", [])
            stop = stopping.Waiting(server.path)
            time.sleep(0.5)
            assert stop.goes_on() and clients[0].ask(cmd="close", actor=0) == {"error": "UnknownActor"}
            for client in clients:
                client.leave()
            ended = stop.ended()
            assert ended == (f"bin/stop: the server has ended, and {file} is written\n", 0), ended
        assert checked(program, file) == '{"ok":{"actors":0,"classes":9,"edits":1}}\n'


def parent_of(process):
    """The process that started another one; None where that has ended."""
    try:
        with open(f"/proc/{process}/stat", encoding="utf-8", errors="replace") as file:
            return int(file.read().rpartition(")")[2].split()[1])
    except (FileNotFoundError, ProcessLookupError):
        return None


class Supervised:
    """A server that bin/supervise has started, whose readiness is heard."""

    def __init__(self, folder, seconds, *words):
        self.path = os.path.join(folder, "socket")
        self.told = socket.socket(socket.AF_UNIX, socket.SOCK_DGRAM)
        self.told.bind(os.path.join(folder, "told"))
        self.told.settimeout(PATIENCE)
        known = {**os.environ, "NOTIFY_SOCKET": os.path.join(folder, "told")}
        words = [SUPERVISE, "--seconds", str(seconds), *words, "--socket", self.path]
        how = {"stdout": subprocess.PIPE, "stderr": subprocess.PIPE, "text": True, "start_new_session": True}
        self.process = subprocess.Popen(words, env=known, **how)
        assert self.hears() == "READY=1"

    def __enter__(self):
        return self

    def __exit__(self, *_):
        self.told.close()
        for process in self.servers():
            os.kill(process, signal.SIGKILL)
        self.process.kill()
        self.process.wait()

    def hears(self):
        return self.told.recv(100).decode()

    def servers(self):
        """The processes that were started, which are the server."""
        return [it for it in map(int, filter(str.isdigit, os.listdir("/proc"))) if parent_of(it) == self.process.pid]

    def client(self, Server):
        server = Server(None, 1)
        server.path = self.path
        return server.client()

    def ended(self):
        """What is written and said, and the status."""
        out, err = self.process.communicate(timeout=PATIENCE)
        return out, err, self.process.returncode


def supervised(program, Server, _post):
    """A signal to bin/supervise ends the server, with its image written, and the status is 0, also where the server has no number of
    sessions. Ctrl-C does not reach the server."""
    for sign, options in ((signal.SIGTERM, []), (signal.SIGINT, ["--sessions", "40"])):
        with tempfile.TemporaryDirectory() as folder:
            file = os.path.join(folder, "image")
            words = [program, "serve", "--workers", "1", *options, "--image", file]
            with Supervised(folder, PATIENCE, *words) as them:
                with them.client(Server) as client:
                    client.make("M", [])
                os.killpg(them.process.pid, sign)
                assert them.hears() == "STOPPING=1"
                out, err, status = them.ended()
                assert stopping.told(err) == f"bin/stop: the server has ended, and {file} is written\n", err
                assert (out, status) == ('{"ok":{"posts":0,"steps":0}}\n', 0), (out, err, status)
            assert checked(program, file) == '{"ok":{"actors":0,"classes":9,"edits":1}}\n'


def supervised_in_vain(program, Server, _post):
    """A server that does not end in time is killed, and one that ends by itself or by a signal of its own has its own status."""
    with tempfile.TemporaryDirectory() as folder:
        file = os.path.join(folder, "image")
        with Supervised(folder, 1.5, program, "serve", "--workers", "1", "--image", file) as them, them.client(Server) as client:
            client.make("M", [])
            them.process.terminate()
            out, err, status = them.ended()
            said = "the server has not ended after 1.5 seconds: it is killed, and what was done since its image was saved last is NOT saved"
            assert (out, status) == ("", 1) and not os.path.exists(file), (out, status)
            assert err.splitlines()[-1] == f"bin/supervise: {said}", err
    with tempfile.TemporaryDirectory() as folder:
        with Supervised(folder, PATIENCE, program, "serve", "--workers", "1", "--sessions", "1") as them:
            them.client(Server).leave()
            assert them.ended() == ('{"ok":{"posts":0,"steps":0}}\n', "", 0)
    with tempfile.TemporaryDirectory() as folder:
        with Supervised(folder, PATIENCE, program, "serve", "--workers", "1") as them:
            (server,) = them.servers()
            os.kill(server, signal.SIGKILL)
            assert them.ended() == ("", "", 128 + signal.SIGKILL)
        none = subprocess.run([SUPERVISE, program, "script"], capture_output=True, text=True, timeout=PATIENCE)
        assert none.returncode == 2 and "start a server" in none.stderr, none
        gone = subprocess.run([SUPERVISE, "./gone", "serve", "--socket", "s"], capture_output=True, text=True, timeout=PATIENCE, cwd=folder)
        assert (gone.stderr, gone.returncode) == ("bin/supervise: ./gone: No such file or directory\n", 1), gone


def units(program):
    """The units of docs/OPERATING.md by their names, for this program and these tools."""
    with open(f"{TOP}/docs/OPERATING.md", encoding="utf-8") as file:
        found = re.findall(r"```\n(\[Unit\]\n.*?)```", file.read(), re.S)
    assert len(found) == len(UNITS), f"docs/OPERATING.md has {len(found)} units"
    places = (("/srv/actorimage/crates/actorimage/out/actorimage", program), ("/srv/actorimage", TOP))
    for old, new in places:
        found = [text.replace(old, new) for text in found]
    return dict(zip(UNITS, found))


def words_of(text, key, folder):
    """The words that a unit runs, with its files in a folder."""
    words = re.search(rf"^{key}=(.*)$", text, re.M)[1].replace("$$", "$").replace("%%", "%")
    words = words.replace("/var/lib/actorimage/image", f"{folder}/image").replace("/run/actorimage/socket", f"{folder}/socket")
    return shlex.split(words)


def units_are_right(program, _Server, _post):
    """systemd finds nothing wrong with the units. The first one starts a server that ends with its image written, and the last one has it
    written, and keeps a copy."""
    texts = units(program)
    with tempfile.TemporaryDirectory() as folder:
        if shutil.which("systemd-analyze"):
            for name, text in texts.items():
                with open(os.path.join(folder, name), "w", encoding="utf-8") as file:
                    file.write(text)
            words = ["systemd-analyze", "verify", "--man=no", *UNITS]
            verified = subprocess.run(words, cwd=folder, capture_output=True, text=True, timeout=PATIENCE)
            assert (verified.stdout, verified.stderr, verified.returncode) == ("", "", 0), verified
        image = os.path.join(folder, "image")
        words = words_of(texts["actorimage.service"], "ExecStart", folder)
        process = subprocess.Popen(words, stdout=subprocess.PIPE, stderr=subprocess.PIPE, text=True)
        assert await_socket(process, os.path.join(folder, "socket")), "the unit's words start no server"
        for key in ("ExecStart", "ExecStartPost"):
            words = words_of(texts["actorimage-save.service"], key, folder)
            subprocess.run(words, cwd=folder, stdout=subprocess.DEVNULL, check=True, timeout=PATIENCE)
        (copy,) = (name for name in os.listdir(folder) if re.fullmatch("image[.][0-9]{2}", name))
        assert checked(program, image) == checked(program, os.path.join(folder, copy)) != ""
        os.remove(image)
        process.terminate()
        out, err = process.communicate(timeout=PATIENCE)
        assert (process.returncode, out) == (0, '{"ok":{"posts":0,"steps":0}}\n') and os.path.exists(image), (out, err)


TRIALS = (stopped_where_all_places_are_taken, supervised, supervised_in_vain, units_are_right)
