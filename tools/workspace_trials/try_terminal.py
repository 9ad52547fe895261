"""Trials at a terminal: typed and pasted entries, keys, and Ctrl-C."""

import re
import signal
import tempfile

from trial_parts.patience import PATIENCE, until
from workspace_parts.terminal import readline

from .pretend import Terminal
from .try_common import COUNTER, SPIN, WORKSPACE, same, shell_program


# With so many objects a quantum takes long enough for a sign of life on a fast machine too.
LADEN = [
    "Link : Object | next |",
    "Link >> next: link  next := link",
    "Laden : Spin | links |",
    "Laden >> load  | i link | i := 0. [i < 1000] whileTrue: [link := Link new. link next: links. links := link. i := i + 1]. ^i",
    "s := Laden actor",
]


class Typing:
    """A terminal with a home of its own."""

    def __init__(self, program, *options):
        self.command = [WORKSPACE, "--program", program, *options]

    def __enter__(self):
        self.folder = tempfile.TemporaryDirectory()
        return self.open()

    def open(self):
        self.terminal = Terminal(self.command, self.folder.name, self.folder.name)
        self.terminal.see("\n> ")
        return self.terminal

    def __exit__(self, kind, *_):
        self.terminal.kill()
        self.folder.cleanup()


def typed(terminal, lines):
    for line in lines:
        found = terminal.ask(line)
    return found


def session(program):
    """A session in a terminal, and its end."""
    typing = Typing(program)
    with typing as terminal:
        same(typed(terminal, [*COUNTER, "c := Counter actor"]), "actor 0\n")
        same(typed(terminal, ["c start. c bump. c bump"]), "2\n")
        terminal.type("Counter >> bad   ^(3 +\n")
        terminal.see("bad   ^(3 +\n  ")
        terminal.type("\n")
        same(terminal.see("> "), "\n  ^(3 +\n       ^ BadToken: the method ends where an operand is expected\n> ")
        same(terminal.ask("c bump"), "3\n")
        same(terminal.end(), 0)
        terminal = typing.open()
        terminal.type(":quit\n")
        same(terminal.process.wait(PATIENCE), 0)


def keys(program):
    """Completion, and the history of another session."""
    if not readline:
        return
    typing = Typing(program)
    with typing as terminal:
        typed(terminal, [*COUNTER, "c := Counter actor"])
        terminal.type("c st\t\n")
        terminal.see("a Counter\n> ")
        same(terminal.end(), 0)
        terminal = typing.open()
        terminal.type("\x1b[A\n")
        terminal.see("c start\n")
        terminal.see("nothing is named c; make an actor of a class, as in  c := Counter actor\n> ")


BUMP = ["Counter >> bump", "count := 7.", "^count", ""]


def whole_methods(program):
    """A method over several lines comes back as a whole: where its pattern alone is typed, by Tab, and from the history, also that
    of another session."""
    typing = Typing(program)
    with typing as terminal:
        typed(terminal, ["Counter : Object | count |"])
        type_lines(terminal, BUMP)
        typed(terminal, ["c := Counter actor"])
        same(terminal.ask("c bump"), "7\n")
        terminal.type("Counter >> bump\n\n")
        text = "\nCounter >> bump\n  count := 7.\n  ^count\n"
        terminal.see(text + "this method stays; one that does nothing is written  Counter >> bump  ^self\n> ")
        same(terminal.ask("c bump"), "7\n")
        type_lines(terminal, ["Counter >> rest", "^self", ""])
        if not readline or "libedit" in readline.__doc__:
            return
        # The last word, count, is written over.
        terminal.type("Counter >> bu\t" + "\x7f" * len("count") + "1\n")
        terminal.see("1\n> ")
        same(terminal.ask("c bump"), "1\n")
        type_lines(terminal, [*BUMP[:2], "^8", ""])
        same(terminal.end(), 0)
        terminal = typing.open()
        typed(terminal, ["Counter : Object | count |", "c := Counter actor"])
        terminal.type("\x1b[A\x1b[A\x1b[A\n")
        terminal.see("\n> ")
        same(terminal.ask("c bump"), "8\n")


def later_lines(program):
    """A method whose first line alone would do is written when it is whole, where the line ends so that more comes. Else a line that begins
    with blanks goes on with it, and what is typed then takes its place, in the history too."""
    with Typing(program) as terminal:
        typed(terminal, ["C : Object"])
        type_lines(terminal, ["C >> one  | a | a := 3.", "a := a + 1.", "^a", ""])
        typed(terminal, ["c := C actor"])
        same(terminal.ask("c one"), "4\n")
        same(terminal.ask("D : Object"), "class D, version 3\n")
        typed(terminal, ["C >> two  ^true & false"])
        type_lines(terminal, ["    ifTrue: [1]", "ifFalse: [2]", ""])
        same(terminal.ask("c two"), "2\n")
        same(terminal.ask("C >> three  ^3."), "")
        same(terminal.ask("c three"), "3\n")
        if not readline or "libedit" in readline.__doc__:
            return
        # The first line by itself was a version of its own, and the whole is one more each time it is written.
        terminal.type("\x1b[A" * 4 + "\n")
        terminal.see("ifFalse: [2]\n")
        terminal.see("> ")
        same(terminal.ask("E : Object"), "class E, version 8\n")


def slips(program):
    """A block with a parameter, and a comment that is not closed, are told of at once, and the next entry is one of its own."""
    with Typing(program) as terminal:
        typed(terminal, ["C : Object", "c := C actor"])
        said = "a block has no parameters; write the loop with whileTrue: and a temporary\n"
        same(terminal.ask("C >> each  self do: [:e | e foo]")[-len(said) :], said)
        same(terminal.ask("c each: [:e | e foo]").endswith("^ blocks stand in methods only; here messages are sent to actors\n"), True)
        said = "this comment is not closed; put a double quote at its end\n"
        for line in ('C >> one  ^1 "one', 'c one "one', '"The one." c one "one'):
            same(terminal.ask(line)[-len(said) :], said)
        type_lines(terminal, ['C >> one  "One, and', 'no more."', "^1", ""])
        same(terminal.ask("c one"), "1\n")
        terminal.type('C >> two  "Two\nC >> one  ^2\n')
        terminal.see(said + "> ")
        same(terminal.ask("c one"), "1\n")


def type_lines(terminal, lines):
    for line in lines[:-1]:
        terminal.type(line + "\n")
        terminal.see(line + "\n  ")
    terminal.type(lines[-1] + "\n")
    terminal.see("\n> ")


def pasted(program):
    """Several entries that are pasted at once, where readline takes them as a whole."""
    if getattr(readline, "_READLINE_LIBRARY_VERSION", "0") < "8.1":
        return
    with Typing(program) as terminal:
        text = "Job : Object\nJob >> work: n\n  | i |\n  i := 0.\n\n  ^i + n\n\nj := Job actor\nj work: 3"
        terminal.paste(text)
        terminal.see("j work: 3\n")
        same(terminal.see("> "), "class Job, version 1\nactor 0\n3\n> ")
        # A listing of a document, with its prompts and what was printed there.
        same(terminal.ask("> j work: 4"), "4\n")
        text = "> Job >> work: n\n    | i |\n    i := 7.\n    ^i + n\n> j work: 3\n10\n> j work: 4\n11"
        terminal.paste(text)
        terminal.see("\r11\n")
        same(terminal.see("> "), "10\n11\n> ")


def long_run(program):
    """A long run shows that it runs, and is broken off; an edit in the middle of the turn ends it."""
    with Typing(program, "--quantum", "1024") as terminal:
        typed(terminal, SPIN)
        typed(terminal, LADEN)
        same(terminal.ask("s load"), "1000\n")
        terminal.type("s spin. s spin\n")
        terminal.see("quanta so far; Ctrl-C breaks off")
        terminal.interrupt()
        told = terminal.see("> ")
        where = "turn 2 of actor 1 was broken off after [0-9,]+ quanta; :run or :step goes on where it was\n"
        if not re.search(where + "not sent: s spin\n", told):
            raise AssertionError(f"it says {told!r}")
        same(terminal.ask(":step 2"), "2 quanta, 2,048 steps\n")
        terminal.ask("Spin >> goOn  ^false")
        if not terminal.ask(":run").endswith("turn 2 of actor 1 answers 7\n"):
            raise AssertionError("the turn does not end after the edit")
        same(terminal.ask("s spin"), "7\n")


def broken_line(program):
    """Ctrl-C while a line is typed leaves the line."""
    with Typing(program) as terminal:
        terminal.type("C >> m\n")
        terminal.see("C >> m\n  ")
        terminal.type("^3")
        terminal.see("^3")
        terminal.be_awaited()
        terminal.interrupt()
        terminal.see("\n> ")
        same(terminal.ask(":methods"), "no method was written yet\n")
        same(terminal.end(), 0)


def slow_start(program):
    """Ctrl-C or a signal while the program is built: the build ends too."""
    for number, status in ((None, 130), (signal.SIGTERM, 143)):
        with tempfile.TemporaryDirectory() as folder:
            path = shell_program(folder, "sleep 100 & echo building $! >&2; wait")
            terminal = Terminal([WORKSPACE, "--program", path], folder)
            build = int(terminal.see("\n").removeprefix("building "))
            terminal.be_awaited()
            if number:
                terminal.process.send_signal(number)
            else:
                terminal.interrupt()
                terminal.see("bin/workspace: broken off\n")
            same(terminal.process.wait(PATIENCE), status)
            until(lambda: not lives(build), "the build goes on")


def lives(number):
    """Whether a process runs; one that has ended, and whose end nobody has asked for, does not."""
    try:
        with open(f"/proc/{number}/stat", encoding="utf-8") as file:
            return file.read().rpartition(")")[2].split()[0] != "Z"
    except OSError:
        return False


TRIALS = (session, keys, whole_methods, later_lines, slips, pasted, long_run, broken_line, slow_start)
