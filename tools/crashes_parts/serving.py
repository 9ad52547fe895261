"""A server with a journal."""

import contextlib
import os
import signal
import subprocess

from trial_parts.client import Client, await_socket
from trial_parts.patience import PATIENCE


class Server:
    def __init__(self, program, path, file, sync, workers):
        self.path, self.file = path, file
        self.words = [program, "serve", "--socket", path, "--workers", str(workers), "--image", file, "--journal", "--sync", str(sync)]

    def __enter__(self):
        self.process = subprocess.Popen(self.words, stdout=subprocess.PIPE, stderr=subprocess.PIPE, text=True)
        if not await_socket(self.process, self.path):
            self.process.kill()
            raise AssertionError(f"the server does not begin: {self.process.communicate()[1]!r}")
        return self

    def __exit__(self, *_):
        self.kill(signal.SIGKILL)
        with contextlib.suppress(FileNotFoundError):
            os.remove(self.path)

    def kill(self, by):
        self.process.send_signal(by)
        _, err = self.process.communicate(timeout=PATIENCE)
        assert err == "", err

    def client(self):
        return Client(self.path)
