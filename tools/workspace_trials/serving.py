"""A server for the time of a trial."""

import os
import subprocess

from trial_parts.client import await_socket


class Server:
    """The program, which serves an image at a socket in a folder until the trial is over."""

    def __init__(self, program, folder, *options, socket="socket"):
        self.path = os.path.join(folder, socket)
        self.command = [program, "serve", "--socket", socket, *options]
        self.folder = folder

    def __enter__(self):
        quiet = {"stdout": subprocess.DEVNULL, "stderr": subprocess.DEVNULL}
        self.process = subprocess.Popen(self.command, cwd=self.folder, **quiet)
        if not await_socket(self.process, self.path):
            self.end()
            raise AssertionError("the server makes no socket")
        return self

    def __exit__(self, *_):
        self.end()

    def end(self):
        """Ends the server as a signal does, and takes away the socket's file, which then stays."""
        self.process.kill()
        self.process.wait()
        if os.path.exists(self.path):
            os.remove(self.path)
