"""What there may be at most, and the refusal of one more."""

from .commands import HISTORY, IS_NIL, accepted, actor, answer, define, error, fault, made, method, outcome, post, ran, remove, reparent
from .commands import run, stats, too_many, version
from .looks import actors, edits, names
from .running import run as run_script
from .script import Script

KERNEL_NAMES, ALL_NAMES = 22, 8192
ENDLESS = "[true] whileTrue: [nil]"
# Names of symbols that stand in one line.
AT_ONCE = 400


def name(first, number):
    """A name of four letters that begins with this one, another for each number below 26^3."""
    return first + "".join(chr(ord("a") + it % 26) for it in (number // 676, number // 26, number))


def slots(first, count):
    return [name(first, number) for number in range(count)]


def all_edits():
    """1,024 classes, the kernel's 8 among them, and then 2,048 edits, of which the last makes a method that does not end."""
    script = Script("classes_and_edits", quantum=1)
    for number in range(1016):
        script.ask(define(name("C", number)), version(number + 1))
    script.ask(define("More"), too_many("classes"))
    script.ask(define("Caaa"), error("ClassExists"))
    last = name("C", 1015)
    for number in range(1016, 2048):
        script.ask(method(last, "a ^1" if number < 2047 else f"a {ENDLESS}"), version(number + 1))
    script.ask(method("Caaa", "b ^1"), too_many("edits"))
    script.ask(remove(last, "a"), too_many("edits"))
    script.ask(define("More"), too_many("classes"))
    script.see(edits, 2048)
    script.ask(actor(last), made(0))
    script.ask(post(1, "a"), accepted(1))
    return script


def classes_and_edits(program):
    run_script(program, all_edits())


def instance_variables(program):
    """64 instance variables, inherited ones counted."""
    script = Script("instance_variables")
    script.ask(define("A", "Object", slots("a", 65)), too_many("slots"))
    script.ask(define("A", "Object", slots("a", 64)), version(1))
    script.ask(define("B", "Object", slots("a", 60)), version(2))
    script.ask(define("C", "B", slots("b", 5)), too_many("slots"))
    script.ask(define("C", "B", slots("b", 4)), version(3))
    script.ask(define("D", "A"), version(4))
    run_script(program, script)


def deepest_chain(program):
    """A chain of 64 classes, Object and C63 among them, is accepted, and one of 65 is too deep."""
    script = Script("deepest_chain")
    for number in range(1, 65):
        parent = f"C{number - 1}" if number > 1 else "Object"
        script.ask(define(f"C{number}", parent), version(number) if number < 64 else error("TooDeep"))
    run_script(program, script, is_cut=True)


def chains_below_a_reparent(program):
    """Two chains under Object, of 40 classes and of 24. A chain of 64 classes, the lowest class counted, that is below the one that gets
    another superclass; and one of 65 is too deep."""
    script = Script("chains_below_a_reparent")
    for number in range(64):
        parent = "Object" if number in (0, 40) else name("C", number - 1)
        script.ask(define(name("C", number), parent), version(number + 1))
    first, top, second, lowest = (name("C", number) for number in (0, 40, 41, 63))
    script.ask(reparent(top, name("C", 39)), error("TooDeep"))
    script.ask(reparent(top, name("C", 38)), version(65))
    script.ask(define("Deeper", lowest), error("TooDeep"))
    script.ask(reparent(first, lowest), error("Cycle"))
    script.ask(reparent(second, name("C", 39)), version(66))
    script.ask(reparent(second, "Object"), version(67))
    script.ask(define("Deeper", lowest), version(68))
    run_script(program, script)


def all_names():
    """8,192 names: the text of a method that needs one more is refused, and one that needs none is not. The second edit makes a method that
    does not end."""
    script = Script("most_names", quantum=1)
    all_but_one = [name("n", number) for number in range(KERNEL_NAMES, ALL_NAMES - 1)]
    for place in range(0, len(all_but_one), AT_ONCE):
        symbols = [{"sym": text} for text in all_but_one[place : place + AT_ONCE]]
        script.ask(post(1, IS_NIL, args=symbols), error("UnknownActor"))
    script.see(names, all_but_one)
    script.ask(method("Object", "fits ^self more"), too_many("names"))
    script.see(names, [*all_but_one, "fits"])
    script.ask(method("Object", "fits ^self isNil"), version(1))
    script.ask(post(1, IS_NIL, args=[{"sym": "more"}]), too_many("names"))
    script.ask(post(1, IS_NIL, args=[{"sym": "3a"}]), error("BadName"))
    script.see(names, [*all_but_one, "fits"])
    script.ask(method("Object", f"fits {ENDLESS}"), version(2))
    script.ask(actor(), made(0))
    script.ask(post(1, "fits"), accepted(1))
    return script


def most_names(program):
    run_script(program, all_names())


def items_of_history(program):
    """A full history tells how many items there were: each edit that was accepted is one, and what is refused is none. An actor, its
    message and the beginning of its turn are three more. Its turn does not end, and each quantum is one item up to the last."""
    for script, count in ((all_edits(), 2048), (all_names(), 2)):
        left = HISTORY - count - 3
        script.ask(run(left), ran(left, left))
        script.ask(run(1), error("HistoryFull"))
        script.looks.clear()
        run_script(program, script)


def most_actors(program):
    """65,536 actors: one more is refused, and a turn that asks for one ends with a fault."""
    script = Script("most_actors", quantum=1, capacity=1)
    script.ask(method("Object", "make ^Object newActor"), version(1))
    for number in range(65536):
        script.ask(actor(), made(number))
    script.ask(actor(), too_many("actors"))
    script.ask(post(1, "make"), accepted(1))
    script.ask(run(1), ran(1, 1))
    script.ask(run(1), ran(1, 2))
    script.ask(outcome(1), fault("tooManyActors"))
    script.see(actors, 65536)
    run_script(program, script)


def messages(program):
    """A mailbox of 1,024 messages, and one of 64 where nothing is said. A full one takes a message where its actor has begun one."""
    for said, most in ((None, 64), (1024, 1024)):
        script = Script(f"messages: {most}", capacity=said)
        script.ask(actor(), made(0))
        for number in range(1, most + 1):
            script.ask(post(number), accepted(number))
        script.ask(post(most + 1), error("Full"))
        script.ask(run(1), ran(1, 1))
        script.ask(post(most + 1), accepted(most + 1))
        run_script(program, script)


def sends_after_all_edits(program):
    """Caches serve at 2,048 edits as at one, and commits and statistics find memory. The second turn finds what the first one did."""
    script = Script("sends_after_all_edits")
    script.ask(define("M"), version(1))
    for number in range(2, 2049):
        script.ask(method("M", "a ^3 isNil"), version(number))
    script.ask(method("M", "b ^1"), too_many("edits"))
    script.ask(actor("M"), made(0))
    for turn in (1, 2):
        script.ask(post(turn, "a"), accepted(turn))
        script.ask(run(), ran(1, 4))
    script.ask(outcome(2), answer(False))
    site = {"global": 0, "selector": "isNil", "sends": 2, "site": 1, "state": "mono", "super": False, "walk": 1}
    script.ask(stats("M", "a"), {"ok": {"sites": [site]}})
    run_script(program, script, is_cut=True)


TRIALS = (
    classes_and_edits,
    instance_variables,
    deepest_chain,
    chains_below_a_reparent,
    most_names,
    items_of_history,
    most_actors,
    messages,
    sends_after_all_edits,
)
