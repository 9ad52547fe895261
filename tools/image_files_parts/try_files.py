"""Trials on the files of tests/inspect and the examples."""

import json
import os

from inspect_trials.changing import changes_in
from inspect_trials.try_common import FILES, bad_files, good_files, read

from .going_on import go_on
from .program import Ended, same
from .said import Said, try_file

# How many actors, classes and edits some files have.
COUNTS = {"loop": (1, 9, 5), "message-waits": (1, 9, 2), "varied": (3, 9, 3)}
# A file that is no text of the program's.
BY_HAND = "by-hand"


def scripts():
    """The names of the scripts that wrote a file beside them."""
    return [name[: -len(".jsonl")] for name in sorted(os.listdir(FILES)) if name.endswith(".jsonl")]


def good(program):
    """Each good file is counted right and saved as it is to be: as it was, but for one that was written by hand. Its turns go on."""
    files = good_files()
    same("files that are counted", COUNTS.keys() - files.keys(), set())
    for name, path in files.items():
        said = try_file(program, name, read(path))
        same(f"{name}: is it good", said.place, None)
        if name != BY_HAND:
            same(f"{name}: the text of the program", said.text, read(path))
        if name in COUNTS:
            same(f"{name}: counts", said.check.out, b'{"ok":{"actors":%d,"classes":%d,"edits":%d}}\n' % COUNTS[name])
        go_on(program, name, read(path))
    return f"{len(files)} files"


def anew(program):
    """A file of the first format counts nothing, and is saved in the second; names that methods have are listed, and white space is not
    saved."""
    text = read(good_files()["message-waits"])
    first = text.replace(b'"format":2', b'"format":1').replace(b'"posts":1,', b"").replace(b',"steps":0', b"")
    texts = (
        ("the first format", first, text.replace(b'"posts":1', b'"posts":0')),
        ("no names, and white space", text.replace(b'["a"]', b" [ ]\n"), text),
    )
    for about, data, wanted in texts:
        said = try_file(program, about, data)
        same(f"{about}: is it good", said.place, None)
        same(f"{about}: what is saved", said.text, wanted)
    return f"{len(texts)} files"


def turned(value):
    """A JSON value with the keys of each object in the other order."""
    if isinstance(value, dict):
        return {key: turned(value[key]) for key in reversed(list(value))}
    return [turned(each) for each in value] if isinstance(value, list) else value


def escaped(text):
    """A JSON text in which each letter e of a text is written by its number."""
    return text.replace("e", "\\u0065").replace("fals\\u0065", "false").replace("tru\\u0065", "true")


def first_turned(value):
    """An image's value whose first actor has its keys in the other order. Those of the image stand in theirs."""
    actors = value["actors"]
    return value | {"actors": [turned(actors[0]), *actors[1:]]} if actors else value


def otherwise(program):
    """What a file says does not depend on spaces, on escapes, or on the order of keys; nor does what is saved of it."""
    count = 0
    for name, path in good_files().items():
        value = json.loads(read(path))
        wanted = try_file(program, name, read(path)).text
        texts = {
            "with spaces": json.dumps(value, indent=2, ensure_ascii=False),
            "with escapes": escaped(json.dumps(value, ensure_ascii=False)),
            "with all keys turned": json.dumps(turned(value), ensure_ascii=False),
            "with an actor turned": json.dumps(first_turned(value), ensure_ascii=False),
        }
        for about, text in texts.items():
            said = try_file(program, name, text.encode())
            same(f"{name} {about}: is it good", said.place, None)
            same(f"{name} {about}: what is saved", said.text, wanted)
            count += 1
    return f"{count} texts"


def malformed(program):
    """Each malformed file is refused by the place that stands beside it."""
    for path in bad_files():
        said = try_file(program, os.path.basename(path), read(path))
        same(f"{path}: place", said.place, read(path + ".refusal").decode().split(":")[0])
    return f"{len(bad_files())} files"


def changed(program):
    """Each change of a good file is refused by the place that tests/inspect/changes.txt says."""
    texts = {name: read(path) for name, path in good_files().items()}
    changes = changes_in(read(os.path.join(FILES, "changes.txt")).decode())
    same("is there a change", bool(changes), True)
    for change in changes:
        data = json.dumps(change.changed(texts[change.file])).encode()
        said = Said(data)
        same(f"{change.line}: place", said.place or "good", change.wanted.split(":")[0])
        try_file(program, change.line, data, said)
        if said.place is None:
            go_on(program, change.line, data)
    return f"{len(changes)} changes"


def written(program):
    """Each script of tests/inspect writes the file beside it, by quanta of one step."""
    for name in scripts():
        path = program.at(name)
        ended = program.script(path, *read(os.path.join(FILES, name + ".jsonl")).splitlines(), options=("--quantum", 1))
        same(f"{name}: script", (ended.status, ended.err), (0, b""))
        same(f"{name}: what is saved", read(path), read(good_files()[name]))
        same(f"{name}: beside it", os.path.exists(path + ".new"), False)
    same("a session without lines", program.script(program.at("empty")), Ended(0, b"", b""))
    same("a session without lines: what is saved", read(program.at("empty")), read(good_files()["empty"]))
    return f"{len(scripts()) + 1} files"


TRIALS = (good, anew, otherwise, malformed, changed, written)
