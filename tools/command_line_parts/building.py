"""Trials of the script that builds the program, with an rt that proves nothing: when it begins which crate, what it says of one that is
not proved, and what a look keeps."""

import contextlib
import os
import shutil
import signal
import subprocess
import sys
import tempfile
import time

TOP = os.path.dirname(os.path.dirname(os.path.dirname(os.path.realpath(__file__))))
sys.path[:0] = [f"{TOP}/tools", f"{TOP}/lib"]

from trial_parts.patience import PATIENCE, until  # noqa: E402
from trial_parts.times import later  # noqa: E402

# A run writes down its crate, its words and its process, and its crate again at its end, and leaves a folder for what it made. None goes
# on before so many have begun. The program is the one that is tried.
RT = """#!/usr/bin/env bash
crate=$(basename "$PWD")
echo "begins $crate $$ $*" >>"$LOG"
[ "$1" != try ] || exec "$PROGRAM" "${@:3}"
echo "so far: 1 of 2"
[ "$crate" != "$FAILS" ] || { mkdir -p out/incremental; echo "error: no proof"; exit 1; }
while [ "$(grep -c ^begins "$LOG")" -lt "$BEGUN" ]; do sleep 0.02; done
sleep "$PAUSE"
mkdir -p out/rlib
[ "$1" != run ] || cp "$PROGRAM" out/actorimage
echo "ends $crate" >>"$LOG"
"""


def crates():
    """Each crate with those of the repository below it."""
    with open(f"{TOP}/crates.txt", encoding="utf-8") as file:
        lines = [line.partition(":") for line in file]
    names = {name for name, _, _ in lines}
    return {name: names & set(below.split()) for name, _, below in lines}


def below(name):
    """A crate and all that it stands on."""
    return {name}.union(*map(below, crates()[name]))


class Room:
    """A copy of the script, with crates that have nothing in them."""

    def __init__(self, program):
        self.folder = tempfile.TemporaryDirectory()
        self.top = self.folder.name
        self.log = f"{self.top}/log"
        shutil.copy(f"{TOP}/actorimage", self.top)
        for name in ("crates.txt", "HANDLES"):
            shutil.copy(f"{TOP}/{name}", self.top)
        for name in ("lib", "tools"):
            os.symlink(f"{TOP}/{name}", f"{self.top}/{name}")
        for name in crates():
            os.makedirs(f"{self.top}/crates/{name}/src")
        self.source = f"{self.top}/crates/actorimage/src/main.rt"
        self.edit()
        os.mkdir(f"{self.top}/bin")
        with open(f"{self.top}/bin/rt", "w", encoding="utf-8") as file:
            file.write(RT)
        os.chmod(f"{self.top}/bin/rt", 0o755)
        path = f"{self.top}/bin:{os.environ['PATH']}"
        of_runs = {"LOG": self.log, "PROGRAM": program, "FAILS": "", "PAUSE": "0.1", "BEGUN": "0"}
        self.known = {**os.environ, "PATH": path, "RT_JOBS": "3", **of_runs}

    def __enter__(self):
        return self

    def __exit__(self, *_):
        self.folder.cleanup()

    def edit(self):
        with open(self.source, "w", encoding="utf-8"):
            pass

    def start(self, *words, **known):
        with contextlib.suppress(FileNotFoundError):
            os.remove(self.log)
        how = {"stdin": subprocess.PIPE, "stdout": subprocess.PIPE, "stderr": subprocess.PIPE, "text": True, "start_new_session": True}
        return subprocess.Popen([f"{self.top}/actorimage", *words], env={**self.known, **known}, **how)

    def run(self, *words, text="", **known):
        """What is written, what is said, and the status."""
        process = self.start(*words, **known)
        out, err = process.communicate(text, timeout=PATIENCE)
        return out, err, process.returncode

    def lines(self):
        """What the runs of rt wrote down."""
        try:
            with open(self.log, encoding="utf-8") as file:
                return [line.split() for line in file]
        except FileNotFoundError:
            return []


def example(ending):
    with open(f"{TOP}/examples/edit.{ending}", encoding="utf-8") as file:
        return file.read()


def along_the_graph(program):
    """Each crate is begun once, when those below it are done, up to three at a time; a second run builds nothing, and no copy is left.
    Three stand on no other one, so three are begun at once if any are: the runs wait for that."""
    assert len([name for name in below("actorimage") if not crates()[name]]) == 3, crates()
    with Room(program) as room:
        out, err, status = room.run("script", text=example("jsonl"), BEGUN="3")
        assert (out, status) == (example("replies"), 0), (out, err, status)
        running, done, most = set(), set(), 0
        for what, name, *_ in room.lines():
            if what == "begins":
                assert crates()[name] <= done and name not in done | running, f"{name} is begun too early or again"
                running.add(name)
                most = max(most, len(running))
            else:
                running.remove(name)
                done.add(name)
        assert done == below("actorimage") and most == 3, (done, most)
        assert os.listdir(f"{room.top}/look") == [], os.listdir(f"{room.top}/look")
        for name in done:
            assert f"actorimage: {name}: proving it\n" in err and f"actorimage:   {name}: 1 of 2\n" in err, (name, err)
        assert err.endswith(f", {len(done)} of {len(done)}\n"), err
        out, err, status = room.run("script", text=example("jsonl"))
        assert (out, err, status, room.lines()) == (example("replies"), "", 0, []), (out, err, status)


def has_ended(process):
    """Whether a process is gone, or has only its status left."""
    try:
        with open(f"/proc/{process}/stat", encoding="utf-8") as file:
            return file.read().rpartition(")")[2].split()[0] == "Z"
    except (FileNotFoundError, ProcessLookupError):
        return True


def all_have_ended(room):
    return all(has_ended(words[2]) for words in room.lines() if words[0] == "begins")


def names_what_failed(program):
    """A crate that is not proved is named, what was said is shown, what was checked of it is kept, and the others are ended; none above it is
    begun."""
    with Room(program) as room:
        out, err, status = room.run("script", FAILS="st_guard", PAUSE="3")
        assert (out, status) == ("", 1), (out, err, status)
        assert "\nerror: no proof\nactorimage: st_guard is not proved; all that was said is in " in err, err
        assert os.listdir(f"{room.top}/crates/st_guard/out") == ["incremental"], os.listdir(f"{room.top}/crates/st_guard")
        begun = {words[1] for words in room.lines() if words[0] == "begins"}
        assert "st_guard" in begun and not any("st_guard" in below(name) for name in begun - {"st_guard"}), begun
        until(lambda: all_have_ended(room), "what else was being proved goes on")


def ends_all_at_an_interrupt(program):
    """Ctrl-C, or another signal, ends the runs of rt too."""
    for sign in (signal.SIGINT, signal.SIGTERM):
        with Room(program) as room:
            process = room.start("script", PAUSE="0.5")
            while len([words for words in room.lines() if words[0] == "begins"]) < 4:
                assert process.poll() is None, process.communicate()
                time.sleep(0.02)
            os.killpg(process.pid, sign)
            process.communicate(timeout=PATIENCE)
            assert process.returncode == 130, process.returncode
            until(lambda: all_have_ended(room), "what was being proved goes on")
            assert not os.path.exists(f"{room.top}/crates/actorimage/out"), "the program is built all the same"


def keeps_a_look(program):
    """A look makes its program once, and anew where a source is newer. It is never taken for the one that is proved."""
    with Room(program) as room:
        for is_made in (True, False, True):
            out, err, status = room.run("--look", "script", text=example("jsonl"))
            assert (out, status) == (example("replies"), 0), (out, err, status)
            assert ("making a program without proofs" in err) == is_made and "nothing of this program is proved" in err, err
            assert [words[3] for words in room.lines()] == ["try"] * is_made, room.lines()
            if not is_made:
                later(f"{room.top}/crates/actorimage/look/actorimage-look")
                room.edit()
        assert os.listdir(f"{room.top}/crates/actorimage/look") == ["actorimage-look"]
        assert not os.path.exists(f"{room.top}/crates/actorimage/out")
        out, err, status = room.run("script", text=example("jsonl"))
        assert (out, status) == (example("replies"), 0) and "the first time this takes a while" in err, (out, err, status)
        out, err, status = room.run("--look", "script", PROGRAM="/bin/false", text=example("jsonl"))
        assert (out, status) == (example("replies"), 0), (out, err, status)
        room.edit()
        out, err, status = room.run("--look", "script", PROGRAM="/bin/false", text=example("jsonl"))
        assert (out, status) == ("", 1) and err.endswith("actorimage: no program is made\n"), (out, err, status)


def says_what_it_is(program):
    """The program says itself how it was made, and nothing is added to that."""
    with Room(program) as room:
        for place, words in (("out/actorimage", []), ("look/actorimage-look", ["--look"])):
            name = f"{room.top}/crates/actorimage/{place}"
            os.mkdir(os.path.dirname(name))
            with open(name, "w", encoding="utf-8") as file:
                file.write('#!/bin/sh\necho "${0##*/} $*"\n')
            os.chmod(name, 0o755)
            out, _, status = room.run(*words, "--version")
            assert (out, status) == (f"{os.path.basename(name)} --version\n", 0), (out, status)


TRIALS = (along_the_graph, names_what_failed, ends_all_at_an_interrupt, keeps_a_look, says_what_it_is)


def main():
    # Who runs this in the background may have it ignored.
    signal.signal(signal.SIGINT, signal.default_int_handler)
    for trial in TRIALS:
        trial(os.path.realpath(sys.argv[1]))


if __name__ == "__main__":
    main()
