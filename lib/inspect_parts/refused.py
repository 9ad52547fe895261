"""What is said of a file that is not of the format."""

import json

LONGEST = 40


class BadImage(Exception):
    """A file is refused. `place` is what the program answers with BadImage, `path` says where in the JSON, and `what` is a
    sentence."""

    def __init__(self, place, path, what):
        super().__init__(place, path, what)
        self.place, self.path, self.what = place, path, what

    def line(self):
        return f"{self.place}: {self.path or 'the file'}: {self.what}"


def quoted(value):
    """The beginning of a JSON value, in ASCII and on one line."""
    text = json.dumps(value)
    return text if len(text) <= LONGEST else text[: LONGEST - 2] + ".."


def join(path, key):
    return f"{path}.{key}" if path else key
