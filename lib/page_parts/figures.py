"""How the image does in numbers: what is done a second, what waits, and how long there is room."""

import os
import time
from collections import deque

from common.sockets import connected, process_of

# Points of the curves, one a tick, and those by which it is told how long there is room.
POINTS, OF_ROOM = 600, 60


class Processors:
    """The processor time of the server's process, as the system counts it; there is none where it tells no such thing."""

    def __init__(self, path):
        self.path, self.before = path, None
        self.files = None

    def begin(self):
        """Finds the process that listens. This connection asks nothing and is gone at once."""
        self.files, self.before = None, None
        try:
            with connected(self.path, 1) as stream:
                self.files = f"/proc/{process_of(stream)}/stat"
        except (OSError, AttributeError):
            pass

    def used(self):
        """Processors in use since the last time; None if that is not known."""
        try:
            with open(self.files, encoding="ascii", errors="replace") as file:
                words = file.read().rpartition(")")[2].split()
            spent = (int(words[11]) + int(words[12])) / os.sysconf("SC_CLK_TCK")
        except (OSError, TypeError, ValueError, IndexError):
            return None
        now = time.monotonic()
        before, self.before = self.before, (now, spent)
        return max(0.0, (spent - before[1]) / max(0.001, now - before[0])) if before else None


class Figures:
    """The curves, and the figures of the last tick."""

    def __init__(self, path):
        self.processors = Processors(path)
        self.clear()

    def clear(self):
        """Nothing goes on from before, as in another image."""
        self.status = None
        self.points, self.room = deque(maxlen=POINTS), deque(maxlen=OF_ROOM)
        self.last = {}
        self.processors.begin()

    def take(self, status, turns, waiting, now):
        before, self.status = self.status, status
        self.room.append((now, status["history"], status["edits"]))
        seconds = now - self.at if before else 0
        self.at = now
        posts = rate(status["posts"], before and before["posts"], seconds)
        steps = rate(status["steps"], before and before["steps"], seconds)
        # An image that keeps no faults counts none.
        faults = rate(status.get("faults", 0), before and before.get("faults", 0), seconds)
        if before:
            self.points.append((round(time.time(), 1), posts, round(turns, 1), steps, waiting, faults))
        used = self.processors.used()
        self.last = {
            "posts": posts,
            "turns": round(turns, 1),
            "steps": steps,
            "waiting": waiting,
            "processors": None if used is None else round(used, 2),
            "workers": status["workers"],
            "sessions": status["sessions"],
            "actors": status["actors"],
            "classes": status["classes"],
            "history": status["history"],
            "historyMost": status["history_most"],
            "historyFull": self.full_in(1, status["history_most"] - status["history"]),
            "edits": status["edits"],
            "editsLeft": status["edits_left"],
            "editsFull": self.full_in(2, status["edits_left"]),
            "names": status["names"],
            "allPosts": str(status["posts"]),
            "allSteps": str(status["steps"]),
        }

    def full_in(self, place, left):
        """Seconds until there is no room, if all goes on as in the last minute; None if it does not grow."""
        first, last = self.room[0], self.room[-1]
        grown, seconds = last[place] - first[place], last[0] - first[0]
        return None if grown <= 0 or seconds <= 0 else round(left * seconds / grown)


def rate(now, before, seconds):
    return 0 if before is None or seconds <= 0 else round(max(0, now - before) / seconds, 1)
