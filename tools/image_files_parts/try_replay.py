"""Trials on images that were: an image file and the beginning of its journal, beside the second implementation."""

import json
import os

from crashes_parts.journals import lines_beside, whole_lines
from crashes_parts.redoing import Redone
from inspect_trials.try_common import EXAMPLES, good_files, read
from inspect_trials.written import file_text

from .program import Ended, named, same
from .saving import going_on
from .try_held import FIRST
from .try_journal import ANOTHER
from .try_saves import SCRIPTS

JOURNAL = ("--journal",)
# Of a script that takes more steps only so many numbers of steps are tried.
MOST_STEPS = 40


def killed(program, name):
    """The path of what a script with a journal leaves that is killed, and the lines of its journal."""
    path = program.at(name)
    with going_on(program, path, *JOURNAL) as (script, asked):
        for line in read(os.path.join(EXAMPLES, f"{name}.jsonl")).splitlines():
            asked(line)
        script.kill()
        script.wait()
    return path, [json.loads(line) for line in lines_beside(path)]


def told(lines, steps):
    return Ended(0, b'{"ok":{"lines":%d,"steps":%d}}\n' % (lines, steps), b"")


def replays(about, program, path, words, lines, image):
    """A replay tells how many lines it did, and leaves the image."""
    out = program.at("out")
    same(about, program.run("replay", path, *words, "--image", out), told(lines, image.steps))
    same(f"{about}: the image", read(out), file_text(image.file()).encode())
    os.remove(out)


def to_lines(program):
    """Behind each line of a journal the image is what the second implementation makes of the lines so far, and behind more lines than there
    are that of all. Both files stay."""
    count = 0
    for name in SCRIPTS:
        path, lines = killed(program, name)
        both = read(path), read(path + ".journal")
        image = Redone(json.loads(both[0]))
        for number in range(len(lines) + 1):
            if number:
                image.redo(lines[number - 1])
            replays(f"{name}, line {number}", program, path, ("--to", str(number)), number, image)
            count += 1
        for words in ((), ("--to", str(len(lines) + 1)), ("--to-step", str(image.steps)), ("--to-step", str(1 << 62))):
            replays(f"{name}, {words}", program, path, words, len(lines), image)
        same(f"{name}: both files", (read(path), read(path + ".journal")), both)
    return f"{len(SCRIPTS)} journals, {count} lines"


def behind_step(path, lines, step):
    """The image that has counted so many steps, and takes the next one; or one step more, where the image takes that with the last. With how
    many lines were done whole."""
    image = Redone(json.loads(read(path)))
    for done, line in enumerate(lines):
        number, steps = line.get("ran", (None, 0))
        left = step - image.steps
        if steps <= left:
            image.redo(line)
            continue
        if left:
            image.ran(number, left)
            if image.actors[number].in_turn() and image.actors[number].at_outer_step():
                image = Redone(json.loads(read(path)))
                for line in lines[: done + 1]:
                    image.redo(line)
                rest = next((place for place, line in enumerate(lines[done + 1 :]) if "ran" in line), len(lines) - done - 1)
                for line in lines[done + 1 : done + 1 + rest]:
                    image.redo(line)
                return image, done + 1 + rest
        return image, done
    return image, len(lines)


def to_steps(program):
    """At each number of steps the image is that of the second implementation, also within a quantum. Where a step is one that the image takes
    with the one before, it is taken too."""
    count = 0
    for name in SCRIPTS:
        path, lines = killed(program, name)
        most = sum(line["ran"][1] for line in lines if "ran" in line)
        for step in range(0, most + 1, 1 + most // MOST_STEPS):
            image, done = behind_step(path, lines, step)
            replays(f"{name}, step {step}", program, path, ("--to-step", str(step)), done, image)
            count += 1
    return f"{len(SCRIPTS)} journals, {count} steps"


def what_is_refused(program):
    """A replay is refused where an image or a journal is missing, where the journal is that of another image, where something is at the path
    of the new image, and where so many steps are counted before the journal begins. Nothing is written then."""
    path, lines = killed(program, "edit")
    out, other = program.at("out"), program.put("other", read(good_files()["message-waits"]))

    def refuses(about, words, name, why):
        same(about, program.run("replay", *words, "--image", out), Ended(1, b"", named(name, why)))
        same(f"{about}: what is written", os.path.exists(out), False)

    no_file = "No such file or directory"
    refuses("no image", (program.at("none"),), "ReadFault", f"{program.at('none')}: {no_file}")
    refuses("no journal", (other,), "ReadFault", f"{other}.journal: {no_file}")
    refuses("another journal", (other, "--journal", path + ".journal"), "BadImage", f"{path}.journal line 1: {ANOTHER}")
    bad = program.put("bad", read(path + ".journal").rstrip(b"\n") + b'\n{"begun":7}\n\n')
    refuses("a bad line", (path, "--journal", bad), "BadImage", f"{bad}: line {len(lines) + 2}: no such actor")
    same("before the bad line", program.run("replay", path, "--journal", bad, "--to", str(len(lines)), "--image", out).status, 0)
    before = read(out)
    again = program.run("replay", path, "--image", out)
    same("something is there", again, Ended(1, b"", named("WriteFault", f"{out} is there already")))
    same("what is there", read(out), before)
    os.remove(out)
    header = whole_lines(read(path + ".journal"))[0]
    torn = program.put("torn", header + b'\n{"actor":"Object"}\n{"act')
    replayed = program.run("replay", path, "--journal", torn, "--image", out)
    same("a torn line", (replayed.status, replayed.out), (0, b'{"ok":{"lines":1,"steps":0}}\n'))
    os.remove(out)
    with going_on(program, program.at("late"), *JOURNAL) as (script, asked):
        for line in read(os.path.join(EXAMPLES, "answer.jsonl")).splitlines():
            asked(line)
        asked(b'{"cmd":"save"}')
        asked(FIRST)
        script.kill()
        script.wait()
    late = program.at("late")
    steps = json.loads(read(late))["steps"]
    refuses("earlier steps", (late, "--to-step", str(steps - 1)), "BadArguments", f"{late}: the image has counted {steps} steps")
    same("as many steps", program.run("replay", late, "--to-step", str(steps), "--image", out).out, told(1, steps).out)
    return "6 replays"


TRIALS = (to_lines, to_steps, what_is_refused)
