"""Trials on the files of tests/inspect and the examples."""

import json
import os
import re

from common.repository import TOP
from inspect_parts.forms import FAULTS
from inspect_parts.names import KERNEL
from inspect_parts.reading import read_image

from .changing import changes_in
from .checked import check_page, has
from .try_common import FILES, bad_files, good_files, read, refusal, run, same
from .written import Written, file_text, written


def good():
    """Each good file has a page that is right. A file beside it tells what is shown."""
    for name, path in good_files().items():
        ended = run(path)
        same((name, ended.returncode, ended.stderr), (name, 0, b""))
        shown = check_page(ended.stdout.decode(), read_image(read(path)))
        told = os.path.join(FILES, name + ".shown")
        if os.path.exists(told):
            same(shown, read(told).decode().splitlines())
    return len(good_files())


def malformed():
    """Each malformed file is refused by the line in the file beside it."""
    for path in bad_files():
        ended = run(path)
        same((ended.returncode, ended.stdout), (1, b""))
        same(ended.stderr, f"bin/inspect: {path}: ".encode() + read(path + ".refusal"))
    return len(bad_files())


def changed():
    """Each change of a good file is refused where tests/inspect/changes.txt says, in one line."""
    texts = {name: read(path) for name, path in good_files().items()}
    changes = changes_in(read(os.path.join(FILES, "changes.txt")).decode())
    same(bool(changes), True)
    for change in changes:
        file = change.changed(texts[change.file])
        same((change.line, refusal(file)), (change.line, change.wanted))
    return len(changes)


def scripts():
    """Each script leads the second implementation, by quanta of one step, to the file of its name."""
    paths = good_files()
    names = [name[: -len(".jsonl")] for name in sorted(os.listdir(FILES)) if name.endswith(".jsonl")]
    for name in names:
        commands = [json.loads(line) for line in read(os.path.join(FILES, name + ".jsonl")).splitlines()]
        same((name, file_text(written(commands)).encode()), (name, read(paths[name])))
    return len(names)


def example():
    """The turn of docs/FORMAT.md's example answers what stands there, and so does the message that waits."""
    image = Written()
    for line in read(os.path.join(FILES, "job.jsonl")).splitlines():
        image.reply(json.loads(line))
    image.reply({"cmd": "run"})
    for turn, answer in ((1, 1 + 1 + 3 * 1000), (2, 3 * 1000)):
        same(image.reply({"cmd": "outcome", "actor": 0, "turn": turn}), {"ok": {"answer": answer}})
    return 2


def document():
    """The example of docs/FORMAT.md is a file of the examples, and its other texts of whole files are good. It has the kernel's
    names in their order, and the faults."""
    text = read(os.path.join(TOP, "docs", "FORMAT.md")).decode()
    blocks = [block for block in re.findall(r"^```\n(\{.*?)^```$", text, re.DOTALL | re.MULTILINE) if '"format"' in block]
    # A journal is lines of JSON, of which the first has a format too.
    files = [json.loads(block) for block in blocks if not block.startswith('{"journal"')]
    same(file_text(files[0]).encode(), read(good_files()["job"]))
    for file in files:
        same(refusal(file), "good")
    has("```\n" + " ".join(KERNEL) + "\n```", text)
    for fault in FAULTS:
        has(f"`{fault}`", text)
    return len(files)


TRIALS = (good, malformed, changed, scripts, example, document)
