"""Runs the program on a script. In a script epochs are the second reader's words for them; the program gets its own texts for those that it
has told, and nothing rests on what these are."""

import contextlib
import json
import queue
import re
import subprocess
import threading

from trial_parts.patience import PATIENCE

from .image import EPOCH

# The program's reply where it has none.
NOTHING = "no reply"
TOLD = re.compile(r'"epoch":("[^"\\]+")')


class Epochs:
    """`told` has the program's text for each of the second reader's words that a `status` told; `checkpoints` were accepted up to here."""

    def __init__(self):
        self.told = {}
        self.checkpoints = 0

    def put_in(self, command, line):
        """The line of a command, with the program's text."""
        word = command.get("epoch")
        return json.dumps({**command, "epoch": self.told[word]}) if word in self.told else line

    def take_out(self, command, reply):
        """A reply, with the second reader's word if the epoch has the text that it had before, and no other one has."""
        self.checkpoints += command["cmd"] == "checkpoint" and reply.startswith('{"ok":')
        found = TOLD.search(reply) if command["cmd"] == "status" else None
        if not found:
            return reply
        word, text = EPOCH % self.checkpoints, json.loads(found[1])
        is_same = self.told.setdefault(word, text) == text and list(self.told.values()).count(text) == 1
        return reply.replace(found[1], json.dumps(word)) if is_same else reply


class Talk:
    """A session of the program. Its replies are read while lines are written."""

    def __init__(self, words):
        self.process = subprocess.Popen(words, stdin=subprocess.PIPE, stdout=subprocess.PIPE, stderr=subprocess.DEVNULL)
        self.read = queue.SimpleQueue()
        threading.Thread(target=self.read_all, daemon=True).start()

    def read_all(self):
        with self.process.stdout as out:
            for line in out:
                self.read.put(line)
        self.read.put(b"")

    def say(self, lines):
        # Where it has ended, the replies up to there can be read.
        with contextlib.suppress(BrokenPipeError):
            self.process.stdin.write("".join(line + "\n" for line in lines).encode())
            self.process.stdin.flush()

    def replies(self, count):
        """As many as that, or those that come before its end, or in time."""
        found = []
        while len(found) < count:
            try:
                line = self.read.get(timeout=PATIENCE)
            except queue.Empty:
                break
            if not line.endswith(b"\n"):
                break
            found.append(line.decode(errors="replace")[:-1])
        return found

    def end(self):
        self.process.kill()
        self.process.wait()
        with contextlib.suppress(BrokenPipeError):
            self.process.stdin.close()


def pieces(commands):
    """The places from where and up to where commands can be sent at once: none is sent before a `status` ahead of it is answered."""
    first = 0
    for place, command in enumerate(commands, 1):
        if command["cmd"] == "status" or place == len(commands):
            yield first, place
            first = place


def program_replies(program, commands, lines, quantum, capacity):
    epochs, found = Epochs(), []
    talk = Talk([program, "script", "--quantum", str(quantum), "--capacity", str(capacity)])
    try:
        for first, behind in pieces(commands):
            talk.say(map(epochs.put_in, commands[first:behind], lines[first:behind]))
            replies = talk.replies(behind - first)
            found += map(epochs.take_out, commands[first:behind], replies)
            if len(found) < behind:
                break
    finally:
        talk.end()
    return found + [NOTHING] * (len(lines) - len(found))
