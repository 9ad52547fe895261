"""A script that counts its edits, posts, turns and steps, from which its replies follow."""

from collections import Counter

from scripts_parts.commands import accepted, error, outcome, post, ran, run, stats, version
from scripts_parts.script import QUANTUM, Script


class Session(Script):
    """The session behind another one, on its image, goes on with the counts that an image keeps."""

    def __init__(self, name, before=None, **options):
        super().__init__(name, **options)
        self.edits = before.edits if before else 0
        self.posts = before.posts if before else 0
        self.steps = before.steps if before else 0
        self.turns = Counter()

    def edit(self, command):
        self.edits += 1
        self.ask(command, version(self.edits))

    def refuses(self, command, name, **fields):
        self.ask(command, error(name, **fields))

    def refuses_more(self, command, what):
        self.ask(command, error("TooMany", what=what))

    def post(self, selector, *args, to=0):
        """A message of client 1, whose numbers are 1 and on."""
        self.posts += 1
        self.turns[to] += 1
        self.ask(post(self.posts, selector, to=to, args=args), accepted(self.turns[to]))

    def run(self, quanta, steps, most=None):
        """Of `most` quanta there are so many, with so many steps."""
        self.steps += steps
        self.ask(run(most), ran(quanta, steps))

    def turn(self, selector, *args, to=0, steps, ending):
        """A turn without an act of the image, while no other actor is ready."""
        self.post(selector, *args, to=to)
        self.run(-(-steps // (self.quantum or QUANTUM)), steps)
        self.ask(outcome(self.turns[to], to), ending)

    def sites(self, name, selector, sites):
        self.ask(stats(name, selector), {"ok": {"sites": sites}})

    def checkpoint(self):
        """No message may be pending."""
        self.ask({"cmd": "checkpoint"}, {"ok": {"posts": self.posts, "steps": self.steps}})
        self.turns.clear()


def site(selector, walk=0, by_global=0, by_site=0, state="mono", is_super=False):
    """What `stats` says of a call site."""
    sends = walk + by_global + by_site
    return {
        "global": by_global,
        "selector": selector,
        "sends": sends,
        "site": by_site,
        "state": state if sends else "empty",
        "super": is_super,
        "walk": walk,
    }
