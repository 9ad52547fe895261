"""The program without proofs: `rt try` builds it from the sources of a copy and runs it as a server, whose file is copied meanwhile."""

import os
import shutil
import subprocess
import tempfile
import time

from common.sockets import connected, listens, process_of

# The seconds after which a build is given up.
LONGEST = 3600


def server_at(path):
    """The words with which the process was begun that listens at a socket."""
    with connected(path) as client:
        process = process_of(client)
    with open(f"/proc/{process}/cmdline", encoding="utf-8") as file:
        return file.read().split("\0")[:-1]


def end(started):
    """Ends rt, which is told so and ends what it has started itself."""
    started.terminate()
    try:
        started.wait(60)
    except subprocess.TimeoutExpired:
        started.kill()
        started.wait()


def build(top, path):
    """Builds the program from the sources of the repository in a folder. The answer is what was said where that fails, or None."""
    with tempfile.TemporaryDirectory(prefix="wrong-bodies-") as room, open(f"{room}/said", "w+", errors="replace") as said:
        at = f"{room}/socket"
        words = ["serve", "--socket", at, "--workers", "1"]
        how = {"stdin": subprocess.DEVNULL, "stdout": said, "stderr": subprocess.STDOUT, "env": {**os.environ, "TMPDIR": room}}
        started = subprocess.Popen(["rt", "try", "--", *words], cwd=f"{top}/crates/actorimage", **how)
        try:
            ends = time.monotonic() + LONGEST
            while not listens(at):
                if started.poll() is not None or time.monotonic() > ends:
                    said.seek(0)
                    return said.read()
                time.sleep(0.2)
            # A loader may be begun with the program's path and the words behind it.
            shutil.copyfile(server_at(at)[-len(words) - 1], path)
            os.chmod(path, 0o755)
            return None
        finally:
            end(started)
