"""The most memory that a session takes at any time."""

import contextlib
import subprocess
import tempfile
import threading

from .running import SECONDS, Ended


def most_used(process):
    """The most bytes that a process has used; 0 if it has ended."""
    with open(f"/proc/{process.pid}/status", encoding="ascii") as file:
        found = [line.split()[1] for line in file if line.startswith("VmHWM:")]
    return int(found[0]) * 1024 if found else 0


def give(process, data):
    """A session that ends early reads no more."""
    with contextlib.suppress(BrokenPipeError):
        process.stdin.write(data)
        process.stdin.flush()


def measured(program, script):
    """The end of a session, and the most bytes that it had used when it had answered its last line. What the system tells of a process
    behind its end would count what its parent had used when it began."""
    words = [program, "script", *script.options()]
    with tempfile.TemporaryFile() as said:
        with subprocess.Popen(words, stdin=subprocess.PIPE, stdout=subprocess.PIPE, stderr=said) as process:
            watch = threading.Timer(SECONDS, process.kill)
            writer = threading.Thread(target=give, args=(process, script.data()))
            for thread in (watch, writer):
                thread.daemon = True
                thread.start()
            out = b"".join(process.stdout.readline() for _ in script.replies)
            most = most_used(process)
            writer.join()
            with contextlib.suppress(BrokenPipeError):
                process.stdin.close()
            out += process.stdout.read()
            status = process.wait()
            watch.cancel()
        said.seek(0)
        return Ended(status, out, said.read()), most
