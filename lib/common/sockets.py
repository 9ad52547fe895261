"""The socket of a server. The library for programs (clients/python/actorimage.py) is one file, and opens its own."""

import contextlib
import os
import socket
import stat
import struct

# A name for an end that begins so says that it is the operator's, for whom a server keeps one place more. It is no file.
OPERATOR = b"\0actorimage.operator."
# Those of bin/supervise begin so: it leaves by itself where all others have left a server that is to end.
SUPERVISOR = OPERATOR + b"supervise."


def operator(prefix=OPERATOR):
    """A name for an end of the operator."""
    return prefix + os.urandom(8).hex().encode()


def connected(path, seconds=None, name=b""):
    """The end of a new session, which may have a name. `seconds` are the longest that it waits for the other end. `OSError` where nobody
    takes it."""
    end = socket.socket(socket.AF_UNIX)
    try:
        if name:
            end.bind(name)
        end.settimeout(seconds)
        end.connect(path)
    except BaseException:
        end.close()
        raise
    return end


def listens(path):
    """Whether a server listens there: it gives its socket's file its rights last, and takes it away where it ends."""
    try:
        found = os.stat(path)
    except OSError:
        return False
    return stat.S_ISSOCK(found.st_mode) and stat.S_IMODE(found.st_mode) == 0o600


def process_of(end):
    """The number of the process at the other end; 0 where that is not known."""
    return struct.unpack("3i", end.getsockopt(socket.SOL_SOCKET, socket.SO_PEERCRED, struct.calcsize("3i")))[0]


def sockets_of(process):
    """How many sockets a process has beside its standard input and output; None where it cannot be looked into. A server has one for each
    session, and one more while it listens."""
    folder, count = f"/proc/{process}/fd", 0
    try:
        numbers = [it for it in os.listdir(folder) if int(it) > 2]
    except OSError:
        return None
    for number in numbers:
        with contextlib.suppress(OSError):
            count += os.readlink(f"{folder}/{number}").startswith("socket:")
    return count
