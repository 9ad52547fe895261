"""Trials of two programs on one image's file, and of a file that is changed meanwhile."""

import contextlib
import os
import signal
import subprocess
import sys
import tempfile

from trial_parts.patience import PATIENCE
from workspace_parts import advice
from workspace_parts.holding import TAKEN
from workspace_parts.saving import CHANGED

from .pretend import Terminal
from .serving import Server
from .try_common import WORKSPACE, same, shell_program
from .try_images import ADD, NAME, OPTIONS, content, typed

REFUSED = ([], f"bin/workspace: {TAKEN.format(NAME)}\n", 1)
KEPT = NAME + ".kept1"


@contextlib.contextmanager
def at_work(program, folder, status=0):
    """A workspace at a terminal, on the image."""
    terminal = Terminal([WORKSPACE, "--program", program, *OPTIONS], folder, folder)
    terminal.see("\n> ")
    yield terminal
    same((terminal.end(), sorted(set(os.listdir(folder)) & {NAME, NAME + ".new"})), (status, [NAME]))


def one_at_a_time(program):
    """While a workspace has a file, no other workspace, server or tool begins on it; what it did is saved."""
    with tempfile.TemporaryDirectory() as folder:
        for line, told in (("C : Object", "class C, version 1\n"), ("D : Object", "class D, version 2\n")):
            with at_work(program, folder) as terminal:
                same(terminal.ask(line), told)
                same(typed(program, folder, ["E : Object"]), REFUSED)
                # Held also behind a save.
                terminal.ask(":save")
                same(typed(program, folder, ["E : Object"]), REFUSED)
                serving = [program, "serve", "--socket", "socket", "--workers", "1", *OPTIONS]
                ended = subprocess.run(serving, cwd=folder, capture_output=True, timeout=PATIENCE)
                held = f"{os.path.join(os.path.realpath(folder), NAME)}.new is held by another process"
                same((ended.stderr.decode(), ended.returncode), (f"actorimage: WriteFault\n{held}\n", 1))
                ended = subprocess.run([sys.executable, ADD, NAME, "C", "c"], cwd=folder, capture_output=True, text=True)
                same((ended.stderr, ended.returncode), (f"bin/add-variable: {NAME}: a server or another program has it\n", 1))
        same(typed(program, folder, [":classes"])[0][1:], ["C : Object", "D : Object"])


def of_a_server(program):
    """That a server has the file is told at the start, and not when it is to be saved."""
    with tempfile.TemporaryDirectory() as folder, Server(program, folder, "--workers", "1", *OPTIONS):
        same(typed(program, folder, ["C : Object"]), REFUSED)


def changed(program):
    """A file that was changed stays, at a save and at the end. What the workspace did is beside it then."""
    with tempfile.TemporaryDirectory() as folder:
        typed(program, folder, ["C : Object"])
        other = content(folder).replace(b'"C"', b'"BCD"')
        with at_work(program, folder, 1) as terminal:
            same(terminal.ask("D : Object"), "class D, version 2\n")
            write(folder, other)
            said = f"actorimage: the image is not saved: {changed_file(folder)}\nWriteFault: {advice.REFUSALS['WriteFault']}\n"
            for line in (":save", ":save two.image"):
                same(terminal.ask(line), said)
            same(terminal.ask("E : C"), "class E, version 3\n")
            same(typed(program, folder, ["F : Object"]), REFUSED)
        same(sorted(it for it in os.listdir(folder) if it.endswith((".image", ".new", ".kept1"))), [NAME, KEPT])
        same(content(folder), other)
        same(typed(program, folder, [":classes"], "--image", KEPT)[0][1:], ["C : Object", "D : Object", "E : C"])


def changed_at_the_end(program):
    """A file that was changed stays also where nothing was to be saved before the end, and where it was changed behind a save."""
    with tempfile.TemporaryDirectory() as folder:
        typed(program, folder, ["C : Object"])
        other = content(folder).replace(b'"C"', b'"BCD"')
        with at_work(program, folder, 1) as terminal:
            terminal.ask("D : Object")
            write(folder, other)
        with at_work(program, folder, 1) as terminal:
            terminal.ask("E : Object")
            terminal.ask(":save")
            write(folder, content(folder, KEPT))
            terminal.ask("F : Object")
        same(content(folder), content(folder, KEPT))
        for name, wanted in ((KEPT, ["C : Object", "D : Object"]), (KEPT[:-1] + "2", ["BCD : Object", "E : Object", "F : Object"])):
            same(typed(program, folder, [":classes"], "--image", name)[0][1:], wanted)


def changed_and_not_written(program):
    """Where the image cannot be saved and another one is in the file, that stays, and it is said what is lost."""
    with tempfile.TemporaryDirectory() as folder:
        typed(program, folder, ["C : Object"])
        other = content(folder).replace(b'"C"', b'"BCD"')
        terminal = Terminal([WORKSPACE, "--program", program, *OPTIONS], folder, folder)
        terminal.see("\n> ")
        terminal.ask("D : Object")
        write(folder, other)
        # The workspace holds the file beside it.
        os.remove(os.path.join(folder, NAME + ".new"))
        os.mkdir(os.path.join(folder, NAME + ".new"))
        same("WriteFault" in terminal.ask(":save"), True)
        terminal.type(":quit\n")
        terminal.see(CHANGED.format(NAME) + "; the classes and methods of this session are in lost1.st, for  :load")
        same((terminal.process.wait(PATIENCE), content(folder)), (1, other))


def changed_file(folder):
    """What the program says of a file that was changed."""
    return f"{os.path.join(os.path.realpath(folder), NAME)} was changed by another process, and is NOT replaced"


def write(folder, data):
    with open(os.path.join(folder, NAME), "wb") as file:
        file.write(data)


def killed_program(program):
    """Where the program has died nothing is saved, and the file stays also if it was changed. It is killed once it has a turn to run, which
    does not end."""
    with tempfile.TemporaryDirectory() as folder:
        typed(program, folder, ["C : Object"])
        before = content(folder)
        spin = ["D : Object", "D >> m  [true] whileTrue: [nil]", "d := D actor", "d m", *[":checkpoint", ":run"] * 1000]
        named = shell_program(folder, f'echo $$ >"{folder}/number"\nexec "{program}" "$@"')
        command = [sys.executable, WORKSPACE, "--program", named, *OPTIONS]
        pipes = {"stdin": subprocess.PIPE, "stdout": subprocess.PIPE, "stderr": subprocess.PIPE}
        with subprocess.Popen(command, cwd=folder, text=True, **pipes) as process:
            process.stdin.write("".join(line + "\n" for line in spin))
            process.stdin.flush()
            while process.stdout.readline() not in ("> d m\n", ""):
                pass
            os.kill(int(content(folder, "number")), signal.SIGKILL)
            said = process.communicate(timeout=PATIENCE)[1].splitlines()[-1]
        kept = "the classes and methods of this session are in lost1.st, for  :load"
        again = "the program ended with status -9; start the workspace again, on the image as it was saved last"
        same(said, f"bin/workspace: {again}; {kept}")
        same(content(folder, "lost1.st").decode().splitlines(), ["C : Object", *spin[:2]])
        same((content(folder), os.path.exists(os.path.join(folder, NAME + ".new"))), (before, False))


TRIALS = (one_at_a_time, of_a_server, changed, changed_at_the_end, changed_and_not_written, killed_program)
