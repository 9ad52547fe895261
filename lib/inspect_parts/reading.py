"""From the bytes of a file to an image: each check in its order."""

from .actors import Actors
from .edits import Editor
from .forms import check_form
from .json_text import read_json
from .names import Names
from .senders import check_senders


class Image:
    """What a file says. `names` and `classes` are read; `actors`, `edits` and `senders` are as they are in the file, and so are
    `posts` and `steps`, which are 0 where the format has none."""

    def __init__(self, file):
        self.edits, self.actors, self.senders = file["edits"], file["actors"], file["senders"]
        self.format = file["format"]
        self.posts, self.steps = file.get("posts", 0), file.get("steps", 0)
        self.names = Names(file["names"])
        self.classes = Editor(self.names).do_all(self.edits)
        Actors(self.names, self.classes, self.actors).check()
        check_senders(self.senders, self.actors)


def read_image(data):
    """The image of a file, or BadImage."""
    file = read_json(data)
    check_form(file)
    return Image(file)
