"""Changes of good files, which a line of a text tells: what stands at a path in the JSON is another value then, or is gone."""

import json
import re

STEP = re.compile(r"\[(\d+)\]|\.?([A-Za-z]+)")


class Change:
    """`FILE CHANGE & CHANGE -> REFUSAL`: a change is `PATH = VALUE`, or `PATH gone`. A value that follows `N *` is an array of
    N such values; with `%` in it each has another number there, from 1. The refusal is `PLACE: PATH`, or `good`."""

    def __init__(self, line):
        self.line = line
        before, self.wanted = line.rsplit(" -> ", 1)
        self.file, changes = before.split(" ", 1)
        self.changes = changes.strip().split(" & ")

    def changed(self, text):
        """The file of a text, changed."""
        file = json.loads(text)
        self.apply(file)
        return file

    def apply(self, file):
        for change in self.changes:
            if change.endswith(" gone"):
                self.take(file, change[: -len(" gone")])
            else:
                path, value = change.split(" = ", 1)
                self.put(file, path.strip(), value_of(value))

    def take(self, file, path):
        *steps, last = steps_of(path)
        del follow(file, steps)[last]

    def put(self, file, path, value):
        """A place at the end of an array is a new one."""
        *steps, last = steps_of(path)
        inside = follow(file, steps)
        if isinstance(inside, list) and last == len(inside):
            inside.append(value)
        else:
            inside[last] = value


def changes_in(text):
    """The changes that the lines of a text tell."""
    return [Change(line) for line in text.splitlines() if line and not line.startswith("#")]


def steps_of(path):
    found = [int(place) if place else key for place, key in STEP.findall(path)]
    if "".join(match.group() for match in STEP.finditer(path)) != path:
        raise ValueError(f"{path} is no path")
    return found


def follow(value, steps):
    for step in steps:
        value = value[step]
    return value


def value_of(text):
    many = re.match(r"(\d+) \* ", text)
    if not many:
        return json.loads(text)
    return [json.loads(text[many.end() :].replace("%", str(number + 1))) for number in range(int(many[1]))]
