"""An image of the second implementation that does again what the lines of a journal tell."""

from image_files_parts.loaded import Loaded
from second_opinion.image import Image


class Redone(Loaded):
    """An image of a file, on which lines are done again."""

    def redo(self, entry):
        ((kind, it),) = entry.items()
        if kind == "name":
            assert it not in self.names, f"the name {it} is told twice"
            self.names.append(it)
        elif kind == "edit":
            names = len(self.names)
            self.edit(self.classes.edits, it)
            assert len(self.names) == names, f"an edit comes before its names: {it}"
        elif kind == "actor":
            self.new_actor(self.classes.numbers[it])
        elif kind == "post":
            self.accept(it)
        elif kind == "close":
            assert self.close_mailbox(it), f"actor {it} was closed before"
        elif kind == "begun":
            self.actors[it].begin()
        elif kind == "ran":
            self.ran(*it)
        else:
            assert entry == {"checkpoint": {}}, f"a line that tells nothing: {entry}"
            Image.checkpoint(self, it)

    def accept(self, it):
        """A message of a client is accepted, with a number above its last."""
        assert it["seq"] > self.numbers.get(it["sender"], 0), f"a message is told twice: {it}"
        assert self.deliver(it["actor"], self.message_of(it)), f"a message is not taken: {it}"
        self.numbers[it["sender"]] = it["seq"]
        self.posts += 1

    def ran(self, number, steps):
        """An actor takes so many steps. Only the last of them may reach past it."""
        actor = self.actors[number]
        for left in range(steps, 0, -1):
            assert actor.in_turn() and (left == 1 or not actor.at_outer_step()), f"actor {number} has other steps"
            actor.step()
        self.steps += steps
        if not actor.is_ready():
            self.ready.discard(number)
