"""Questions at random of an image's status, and waits for turns with the epochs that it told."""

from smalltalk.language import LARGEST_NUMBER

# Texts that no program has for an epoch.
NO_EPOCHS = ["", "0", "epoch", "-", "Now", "\u00e9"]
MILLISECONDS = [0, 0, 1, 20, 60_000, 60_000, 60_001]


def some_actor(rng, image):
    """An actor's number; seldom one that isn't there."""
    return rng.randrange(len(image.actors) + (rng.random() < 0.03))


def some_turn(rng, image):
    """A turn of some actor, often the last one that ended."""
    number = some_actor(rng, image)
    ended = len(image.actors[number].results) if number < len(image.actors) else 0
    return {"actor": number, "turn": max(0, ended + rng.choice([0, 0, 0, -1, 1, -2, -63, -64, -65]))}


class Waits:
    """`told` are the epochs of the script, the last one behind the others."""

    def __init__(self, rng, script):
        self.rng, self.script = rng, script
        self.told = []

    def ask(self):
        return self.wait() if self.told and self.rng.random() < 0.7 else self.ask_status()

    def ask_status(self):
        epoch = self.script.add({"cmd": "status"})["ok"]["epoch"]
        if epoch not in self.told:
            self.told.append(epoch)

    def wait(self):
        turn = some_turn(self.rng, self.script.image)
        if self.rng.random() < 0.1:
            turn["actor"] = self.rng.choice([len(self.script.image.actors), LARGEST_NUMBER])
        self.script.add({**turn, "cmd": "wait", "epoch": self.epoch(), "ms": self.rng.choice(MILLISECONDS)})

    def epoch(self):
        """Mostly the last one that was told, which may be over."""
        kind = self.rng.random()
        return self.told[-1] if kind < 0.75 else self.rng.choice(self.told if kind < 0.9 else NO_EPOCHS)
