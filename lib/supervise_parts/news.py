"""What is said of checkpoints: the first at once, and then once a minute how many came. A trouble is said once until it is over."""

import math
import time

BETWEEN = 60.0


class News:
    """`say` says a sentence. `count` checkpoints are not told yet, the last of them at `items` items; nor are the troubles of `waiting`."""

    def __init__(self, say):
        self.say, self.count, self.items, self.told = say, 0, 0, -math.inf
        self.troubles, self.waiting = set(), []

    def checkpoint(self, items):
        self.count, self.items = self.count + 1, items

    def trouble(self, what, why):
        if what not in self.troubles:
            self.troubles.add(what)
            self.waiting.append(f"{what}: {why}")

    def is_over(self, what):
        self.troubles.discard(what)

    def tell(self):
        """Tells what has come. Where checkpoints come more often than once a minute, they wait."""
        for sentence in self.waiting:
            self.say(sentence)
        self.waiting = []
        if time.monotonic() - self.told >= BETWEEN:
            self.tell_count()

    def tell_count(self):
        if self.count:
            self.say(f"{'a checkpoint' if self.count == 1 else f'{self.count:,} checkpoints since, the last'} at {self.items:,} items")
            self.count, self.told = 0, time.monotonic()
