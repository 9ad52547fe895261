"""Keeps the history of a server from filling: asks how many items it has, and has a checkpoint where it has too many."""

import re
import time

from common.sockets import listens, sockets_of

from .asking import Ended, Session
from .news import News

# Seconds between two questions, and behind a failure, and those behind which it is said that no reply comes.
SHORTEST, LONGEST, AGAIN, SILENCE = 0.05, 0.5, 1.0, 30.0
# Items a second, by far more than are made: what is left at a question is not full at the next one, also where that comes late.
FASTEST = 2_000_000
UNASKED, REFUSED = "the history is not looked at", "there is no checkpoint"
MOST_SESSIONS = 1_000_000


def with_a_session_more(words):
    """The words of a server. If it ends after so many sessions, these are one more, for that of the checkpoints."""
    found = list(words)
    for place, word in enumerate(found):
        name, sign, number = word.partition("=")
        if name == "--sessions" and sign:
            found[place] = f"{name}={more(number)}"
        elif place and found[place - 1] == "--sessions":
            found[place] = more(word)
    return found


def more(number):
    """One session more. What the program refuses stays."""
    count = int(number) if re.fullmatch("[0-9]{1,7}", number) else 0
    return str(count + 1) if 0 < count < MOST_SESSIONS else number


class Checkpoints:
    """Those of the server at a path, where its history has so many percent of the items that it holds. There is a session unless it has
    failed or the server is to end. The last question came at the time `since`, or its reply; the next one comes `pause` seconds later, and
    the next checkpoint not before the time `again`."""

    def __init__(self, path, percent, say):
        self.path, self.percent, self.news = path, percent, News(say)
        self.session, self.items = None, 0
        self.since = self.pause = self.again = 0.0

    def wait(self, seconds):
        """Lets so many seconds pass, or fewer, and does what is due meanwhile."""
        try:
            self.go_on(seconds)
        except (ConnectionRefusedError, FileNotFoundError):
            # The server takes no more sessions.
            self.leave()
        except (Ended, OSError, KeyError, TypeError, ValueError) as error:
            self.news.trouble(UNASKED, f"{getattr(error, 'strerror', None) or error}; it is tried again")
            self.leave()

    def go_on(self, seconds):
        if not self.session or not self.session.asked:
            left = self.left()
            if left > 0 or not self.session and not listens(self.path):
                time.sleep(min(seconds, left) if left > 0 else seconds)
                return
            # Not before: a session that has failed since the server has ended is no trouble.
            self.news.tell()
            self.session = self.session or Session(self.path)
            self.session.ask("status")
            self.since = time.monotonic()
        told = self.session.reply(seconds)
        if told:
            self.take(*told)
        elif time.monotonic() - self.since > SILENCE:
            self.news.trouble(UNASKED, f"no reply has come for {SILENCE:g} seconds")
            self.news.tell()

    def left(self):
        """The seconds until the next question. A server that is to end waits for this session, so that asks often then."""
        is_open = listens(self.path) or not self.session
        return self.since + (self.pause if is_open else min(self.pause, SHORTEST)) - time.monotonic()

    def rest(self, pause):
        self.since, self.pause = time.monotonic(), pause

    def leave(self):
        if self.session:
            self.session.leave()
        self.session = None
        self.rest(AGAIN)

    def take(self, asked, reply):
        """Takes a reply."""
        if asked == "checkpoint":
            self.take_checkpoint(reply)
        elif "error" in reply:
            raise Ended(reply["error"])
        else:
            self.take_status(reply["ok"])

    def take_status(self, status):
        self.news.is_over(UNASKED)
        self.items, most = status["history"], status["history_most"]
        if status["sessions"] == 1 and self.takes_nobody():
            self.leave()
        elif 100 * self.items >= self.percent * most and time.monotonic() >= self.again:
            self.session.ask("checkpoint")
        else:
            self.rest(min(LONGEST, max(SHORTEST, (most - self.items) / FASTEST)))

    def take_checkpoint(self, reply):
        if "error" in reply:
            self.news.trouble(REFUSED, f"{reply['error']}; it is tried again")
            self.again = time.monotonic() + AGAIN
        else:
            self.news.is_over(REFUSED)
            self.news.checkpoint(self.items)
        self.rest(LONGEST)

    def takes_nobody(self):
        """Whether the server takes no more sessions: then it has the socket of this one alone, and not that at which it listens."""
        count = sockets_of(self.session.server)
        return count == 1 if count is not None else not listens(self.path)
