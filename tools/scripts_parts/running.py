"""Runs the built program on a script, however its bytes are cut, and compares."""

import contextlib
import json
import os
import socket
import subprocess
import tempfile
from typing import NamedTuple

SECONDS = 600
# The program reads so many bytes at once. Without pieces it reads as many as it can.
PIECES = (1, 2, 7)
LONGEST = 300


class Wrong(Exception):
    """What the program says, writes or leaves is not what it is to be."""


class Ended(NamedTuple):
    status: int
    out: bytes
    said: bytes


def whole(program, data, options=()):
    """The end of a session that is given all bytes at once."""
    with tempfile.TemporaryFile() as given:
        given.write(data)
        given.seek(0)
        ended = subprocess.run([program, "script", *options], stdin=given, capture_output=True, timeout=SECONDS)
    return Ended(ended.returncode, ended.stdout, ended.stderr)


def over_packets(program, options, give, is_waited_for=True):
    """The end of a session whose reads are each given one packet of a socket: what `give` sends."""
    ours, its = socket.socketpair(socket.AF_UNIX, socket.SOCK_SEQPACKET)
    ours.settimeout(SECONDS)
    its.setblocking(is_waited_for)
    with ours, tempfile.TemporaryFile() as out, tempfile.TemporaryFile() as said:
        with its:
            if not is_waited_for:
                give(ours)
            process = subprocess.Popen([program, "script", *options], stdin=its, stdout=out, stderr=said)
        try:
            if is_waited_for:
                # A session may end before its last byte.
                with contextlib.suppress(BrokenPipeError, ConnectionResetError):
                    give(ours)
                ours.close()
            status = process.wait(SECONDS)
        finally:
            process.kill()
            process.wait()
        for file in (out, said):
            file.seek(0)
        return Ended(status, out.read(), said.read())


def in_pieces(program, data, size, options=()):
    """The end of a session of which each read is given so many bytes."""

    def give(ours):
        for place in range(0, len(data), size):
            ours.send(data[place : place + size])

    return over_packets(program, options, give)


def failing(program, pieces):
    """The end of a session whose reads are given these pieces, and of which the next read fails."""

    def give(ours):
        for piece in pieces:
            ours.send(piece)

    return over_packets(program, (), give, is_waited_for=False)


def shown(data):
    text = data.decode(errors="replace")
    return text if len(text) <= LONGEST else text[:LONGEST] + " .."


def compare(about, ended, wanted):
    """A session ends so and has answered so."""
    if ended == wanted:
        return
    replies, others = ended.out.split(b"\n"), wanted.out.split(b"\n")
    for number, (reply, other) in enumerate(zip(replies, others), 1):
        if reply != other:
            raise Wrong(f"{about}: reply {number} is {shown(reply)!r}, not {shown(other)!r}")
    if len(replies) != len(others):
        raise Wrong(f"{about}: there are {len(replies) - 1} whole replies, not {len(others) - 1}")
    raise Wrong(f"{about}: it ends with status {ended.status} and says {shown(ended.said)!r}")


def session(program, about, data, wanted, options=()):
    """A session ends so and answers so, in one piece and however its bytes are cut."""
    compare(about, whole(program, data, options), wanted)
    for size in PIECES:
        compare(f"{about}, in pieces of {size}", in_pieces(program, data, size, options), wanted)


def image_behind(program, script, count):
    """The image file of a session of the first lines of a script."""
    with tempfile.TemporaryDirectory() as folder:
        path = os.path.join(folder, "image")
        ended = whole(program, script.data(count), [*script.options(), "--image", path])
        if (ended.status, ended.said) != (0, b""):
            raise Wrong(f"{script.name}: its first {count} lines end with status {ended.status} and say {shown(ended.said)!r}")
        with open(path, "rb") as file:
            return json.load(file)


def run(program, script, is_cut=False):
    """A script is answered as it has to be, and its image files have what they have to."""
    wanted = Ended(0, "".join(reply + "\n" for reply in script.replies).encode(), b"")
    if is_cut:
        session(program, script.name, script.data(), wanted, script.options())
    else:
        compare(script.name, whole(program, script.data(), script.options()), wanted)
    images = {}
    for count, look, what in script.looks:
        if count not in images:
            images[count] = image_behind(program, script, count)
        found = look(images[count])
        if found != what:
            texts = (shown(repr(it).encode()) for it in (found, what))
            raise Wrong(f"{script.name}: behind {count} lines {look.__name__} says {', not '.join(texts)}")
