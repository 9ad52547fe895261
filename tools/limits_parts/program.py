"""The built program, a folder for the image file of one trial, and how many replies were compared."""

import json
import os

from scripts_parts.measuring import measured
from scripts_parts.running import Ended, Wrong, compare, shown, whole


class Program:
    def __init__(self, path, folder):
        self.path, self.file = path, os.path.join(folder, "image")
        self.compared = 0

    def play(self, session, *options):
        """A session that is answered as it has to be."""
        self.compare(session, whole(self.path, session.data(), [*session.options(), *options]))

    def compare(self, session, ended):
        compare(session.name, ended, Ended(0, "".join(reply + "\n" for reply in session.replies).encode(), b""))
        self.compared += len(session.replies)

    def keep(self, session):
        """The same on the image file, which then has what the session leaves."""
        self.play(session, "--image", self.file)

    def measured(self, session):
        """The most memory that a session has taken at any time, in bytes."""
        ended, most = measured(self.path, session)
        self.compare(session, ended)
        return most

    def put(self, image):
        with open(self.file, "w", encoding="ascii") as file:
            file.write(json.dumps(image))

    def image(self):
        """What the image file has."""
        with open(self.file, "rb") as file:
            return json.load(file)


def same(about, found, wanted):
    if found != wanted:
        texts = (shown(repr(it).encode()) for it in (found, wanted))
        raise Wrong(f"{about} is {', not '.join(texts)}")
