"""Random sources of the three kinds: mutations of good ones, grown ones, and ones at the limits; and some of special forms."""

from .acting import acting
from .forms import computing, inlining
from .grown import grown
from .limits import at_a_limit, instructions
from .mutated import mutated
from .words import ACTING, CALLING, GOOD

MOST_KEPT = 3000


class Sources:
    """Sources that were accepted are kept, to be mutated later."""

    def __init__(self, rng):
        self.rng = rng
        self.kept = GOOD + ACTING

    def keep(self, source):
        if len(self.kept) < MOST_KEPT:
            self.kept.append(source)
        else:
            self.kept[self.rng.randrange(MOST_KEPT)] = source

    def next(self, class_name):
        if self.rng.random() < 0.15:
            source = acting(self.rng, class_name)
            return source if self.rng.random() < 0.8 else mutated(self.rng, source)
        kind = self.rng.random()
        if kind < 0.06:
            return inlining(self.rng)
        if kind < 0.13:
            return computing(self.rng)
        if kind < 0.135:
            return instructions(self.rng)
        if kind < 0.14:
            return mutated(self.rng, inlining(self.rng))
        if kind < 0.45:
            return mutated(self.rng, self.rng.choice(self.kept if self.rng.random() < 0.6 else GOOD))
        if kind < 0.62:
            return grown(self.rng, sane=True)
        if kind < 0.8:
            return grown(self.rng, sane=False)
        return at_a_limit(self.rng) if kind < 0.93 else mutated(self.rng, at_a_limit(self.rng))

    def next_to_run(self, class_name):
        """A source that is likely to be accepted, and to be called by others."""
        kind = self.rng.random()
        if kind < 0.5:
            return acting(self.rng, class_name) if kind < 0.4 else self.rng.choice(ACTING)
        kind = self.rng.random()
        if kind < 0.5:
            return grown(self.rng, sane=True)
        if kind < 0.65:
            return computing(self.rng) if kind < 0.6 else inlining(self.rng)
        if kind < 0.75:
            return mutated(self.rng, self.rng.choice(GOOD))
        return self.rng.choice(GOOD if kind < 0.9 else CALLING)
