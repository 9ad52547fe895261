"""What calls of an image leave, as its file shows it."""

from .commands import IS_NIL, accepted, actor, answer, close, define, error, made, method, outcome, post, ran, remove, run, version
from .looks import actors, capacity, class_name, clients, edits, is_idle, is_open, last_sent, messages, names
from .running import run as run_script
from .script import Script


def defines_and_creates(program):
    script = Script("defines_and_creates")
    script.ask(define("M"), version(1))
    script.ask(actor("M"), made(0))
    script.ask(actor("Symbol"), error("KernelClass"))
    script.ask(actor("N"), error("UnknownClass"))
    script.see(edits, 1)
    script.see(actors, 1)
    script.see(class_name, "M")
    run_script(program, script)


def runs_a_turn(program):
    """An actor at rest, a message of it, and its turn of one step."""
    script = Script("runs_a_turn")
    script.ask(actor(), made(0))
    script.ask(run(), ran(0, 0))
    script.ask(post(1), accepted(1))
    script.ask(outcome(1), error("Pending"))
    script.see(is_idle, True)
    script.ask(run(), ran(1, 1))
    script.ask(outcome(1), answer(False))
    script.ask(outcome(0), error("Expired"))
    script.ask(run(), ran(0, 0))
    script.see(is_idle, True)
    run_script(program, script)


def interns(program):
    """The names of commands stay, of refused ones too. The first is name 22."""
    script = Script("interns")
    script.see(names, [])
    script.ask(post(1, "foo"), error("UnknownActor"))
    script.ask(post(1, "3"), error("BadName"))
    script.see(names, ["foo"])
    run_script(program, script)


def installs(program):
    script = Script("installs")
    script.ask(define("M"), version(1))
    script.ask(method("M", "a ^3 + 4 * 2"), version(2))
    script.see(names, ["a"])
    script.see(edits, 2)
    run_script(program, script)


def refuses_an_install(program):
    """A source that is refused leaves no name."""
    script = Script("refuses_an_install")
    script.ask(define("M"), version(1))
    script.ask(method("M", "a ^x"), error("BadSource", kind="UnknownName", offset=3))
    script.ask(method("Object", "isNil ^3"), error("KernelMethod"))
    script.see(names, [])
    script.see(edits, 1)
    run_script(program, script)


def removes(program):
    """Only a class's own method of the user's is taken away."""
    script = Script("removes")
    script.ask(define("M"), version(1))
    script.ask(method("M", "a ^3 + 4 * 2"), version(2))
    script.ask(remove("N", "a"), error("UnknownClass"))
    script.ask(remove("Object", IS_NIL), error("KernelMethod"))
    script.ask(remove("Object", "a"), error("NoSuchMethod"))
    script.ask(remove("M", IS_NIL), error("NoSuchMethod"))
    script.ask(remove("M", "a"), version(3))
    script.ask(remove("M", "a"), error("NoSuchMethod"))
    script.see(names, ["a"])
    script.see(edits, 3)
    run_script(program, script)


def reads_actors(program):
    """What is seen of an actor that has a message, posts one to itself and has that one."""
    script = Script("reads_actors")
    script.ask(actor(), made(0))
    script.ask(method("Object", "tell ^thisActor post: #isNil"), version(1))
    script.ask(post(7, "tell", client=3), accepted(1))
    for look, wanted in ((class_name, "Object"), (capacity, 64), (is_open, True), (last_sent, 0), (is_idle, True)):
        script.see(look, wanted)
    script.see(messages, [(3, 7, "tell", [])])
    script.ask(run(1), ran(1, 4))
    script.see(last_sent, 1)
    script.see(is_idle, False)
    script.see(messages, [({"ref": 0}, 1, "isNil", [])])
    run_script(program, script)


def reads_no_actor(program):
    script = Script("reads_no_actor")
    script.ask(outcome(1), error("UnknownActor"))
    script.ask(close(), error("UnknownActor"))
    script.ask(run(), ran(0, 0))
    script.see(actors, 0)
    script.see(clients, [])
    run_script(program, script)


TRIALS = (defines_and_creates, runs_a_turn, interns, installs, refuses_an_install, removes, reads_actors, reads_no_actor)
