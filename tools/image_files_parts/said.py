"""What is to be said of the bytes of a file, and what is to be written of it: by the reader of bin/inspect."""

from inspect_parts.json_text import read_json
from inspect_parts.reading import read_image
from inspect_parts.refused import BadImage
from inspect_trials.try_common import read
from inspect_trials.written import file_text

from .program import Ended, refusal, same


def refused(place):
    """What `check` ends with where a place refuses a file."""
    return Ended(1, b'{"error":"BadImage","place":"%s"}\n' % place.encode(), b"")


class Said:
    """`place` is the place that refuses a file, or None. `check` is what the program's check ends with. `text` is what is in the
    file after a session without commands: that of a file which is refused stays."""

    def __init__(self, data):
        try:
            image = read_image(data)
        except BadImage as bad:
            self.place, self.check, self.text = bad.place, refused(bad.place), data
        else:
            counts = len(image.actors), len(image.classes.all), len(image.edits)
            self.place, self.check = None, Ended(0, b'{"ok":{"actors":%d,"classes":%d,"edits":%d}}\n' % counts, b"")
            parts = {"format": 2, "names": image.names.given + image.names.brought, "posts": image.posts, "steps": image.steps}
            self.text = file_text({**read_json(data), **parts}).encode()


def try_file(program, about, data, said=None):
    """Checks a file with these bytes; then saves it, twice if it is good. Answers what is said of it."""
    said = said or Said(data)
    path = program.put("file", data)
    same(f"{about}: check", program.check(path), said.check)
    same(f"{about}: after check", read(path), data)
    for _ in range(1 if said.place else 2):
        same(f"{about}: script", program.script(path), refusal("BadImage") if said.place else Ended(0, b"", b""))
        same(f"{about}: what is saved", read(path), said.text)
    return said


def only_check(program, about, data, wanted):
    """What `check` says of a file, by its place, or None if it is good."""
    ended = program.check(program.put("file", data))
    same(about, ended, refused(wanted) if wanted else Said(data).check)
