"""Ctrl-C. While an entry is done it only leaves a mark, which a run looks at between its slices, so that no reply is lost."""

import signal


class Breaks:
    def __init__(self):
        self.asked = False

    def __enter__(self):
        self.asked = False
        self.before = signal.signal(signal.SIGINT, self.mark)
        return self

    def __exit__(self, *_):
        signal.signal(signal.SIGINT, self.before)

    def mark(self, number, frame):
        """The second Ctrl-C is for a program that does not reply."""
        if self.asked:
            raise KeyboardInterrupt
        self.asked = True
