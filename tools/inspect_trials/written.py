"""Image files that the second implementation writes: what the trials show."""

from common.compact import compact
from inspect_parts.edits import names_of
from inspect_parts.names import KERNEL
from second_opinion.image import Image
from second_opinion.inspecting import part
from smalltalk.language import is_selector


def file_text(file):
    """The text of a file, as the program writes it."""
    return compact(file) + "\n"


class Written(Image):
    """An image that keeps the order of its names, as a file has them, and has a file to be saved in."""

    def __init__(self, quantum=1, capacity=64):
        super().__init__(quantum, capacity)
        self.names = []

    def intern(self, texts):
        for text in texts:
            if text not in self.names and text not in KERNEL:
                self.names.append(text)

    def method(self, command):
        reply = super().method(command)
        if "ok" in reply:
            self.intern(names_of(self.installed))
        return reply

    def post(self, command):
        self.intern(self.names_in(command))
        return super().post(command)

    def names_in(self, command):
        """The names that a post brings, accepted or not: up to the first text that says nothing."""
        for it in ({"sym": command["selector"]}, *command["args"]):
            if isinstance(it, dict) and "sym" in it:
                if not is_selector(it["sym"]):
                    return
                yield it["sym"]
            elif isinstance(it, dict) and it.get("class", "Object") not in self.classes.numbers:
                return

    def save(self, command):
        return {"ok": {"bytes": len(file_text(self.file()).encode())}}

    def file(self):
        return {
            "actors": [part(self, actor) for actor in self.actors],
            "edits": self.classes.log,
            "format": 2,
            "names": self.names,
            "posts": self.posts,
            "senders": sorted(map(list, self.numbers.items())),
            "steps": self.steps,
        }


def written(commands, quantum=1, capacity=64):
    """The file of a script."""
    image = Written(quantum, capacity)
    for command in commands:
        image.reply(command)
    return image.file()
