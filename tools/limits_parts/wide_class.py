"""A class with 64 instance variables."""

from scripts_parts.commands import actor, answer, define, fault, made, method, outcome, remove, reparent
from scripts_parts.limits import slots

from . import most
from .session import Session

LOCAL = {"local": 0}


def has_its_variables(session, variables):
    """Class B is below A, and its objects are those of A. The last variable is set and read, of the actor and of another object."""
    last = variables[-1]
    session.refuses_more(define("A", "Object", [*variables, "more"]), "slots")
    session.edit(define("A", "Object", variables))
    session.edit(define("B", "A"))
    session.edit(define("C", "A"))
    session.refuses_more(define("D", "A", ["more"]), "slots")
    session.edit(method("A", f"put: x {last} := x"))
    session.edit(method("A", f"last ^{last}"))
    session.edit(method("A", f"first ^{variables[0]}"))
    session.edit(method("A", "make: x | b | b := B new. b put: x. ^b last"))
    session.ask(actor("B"), made(0))
    # The dispatch and eleven instructions, five of `put:` and two of `last`.
    session.turn("make:", 7, steps=19, ending=answer(7))
    session.turn("put:", 9, steps=6, ending=answer(LOCAL))
    session.turn("last", steps=3, ending=answer(9))
    session.turn("first", steps=3, ending=answer(None))


def is_edited(session, variables):
    """What is installed in a class, removed from it, and found above it once it has another superclass."""
    last = variables[-1]
    session.ask(actor("C"), made(1))
    session.edit(method("B", f"last ^{last} + 1"))
    session.turn("last", steps=5, ending=answer(10))
    session.turn("put:", 5, to=1, steps=6, ending=answer(LOCAL))
    session.turn("last", to=1, steps=3, ending=answer(5))
    session.refuses(reparent("C", "Object"), "SlotsDiffer")
    session.edit(reparent("C", "B"))
    session.turn("last", to=1, steps=5, ending=answer(6))
    session.edit(remove("B", "last"))
    session.turn("last", to=1, steps=3, ending=answer(5))
    session.edit(remove("A", "last"))
    session.turn("last", to=1, steps=1, ending=fault("notUnderstood"))
    session.refuses_more(define("D", "C", ["more"]), "slots")


def fills_its_objects(session):
    """An actor makes as many objects as it may have: six steps each, and four up to the one more that ends the turn."""
    session.edit(method("A", "fill [true] whileTrue: [A new]"))
    session.ask(actor("A"), made(2))
    session.turn("fill", to=2, steps=1 + 6 * (most.OBJECTS - 1) + 4, ending=fault("heapFull"))
    session.turn("put:", 3, to=2, steps=6, ending=answer(LOCAL))


def a_class_of_64_variables(program):
    variables = slots("v", most.VARIABLES)
    session = Session("a_class_of_64_variables")
    has_its_variables(session, variables)
    is_edited(session, variables)
    fills_its_objects(session)
    program.keep(session)
    loaded = Session("a_class_of_64_variables, loaded", session)
    loaded.ask(outcome(0, 2), answer(LOCAL))
    loaded.edit(method("A", f"last ^{variables[-1]}"))
    for number, last in ((0, 9), (1, 5), (2, 3)):
        loaded.turn("last", to=number, steps=3, ending=answer(last))
    loaded.checkpoint()
    loaded.turn("fill", to=2, steps=5, ending=fault("heapFull"))
    loaded.turn("last", to=2, steps=3, ending=answer(3))
    program.keep(loaded)
    return f"{most.VARIABLES} variables in each of {most.OBJECTS:,} objects"


TRIALS = (a_class_of_64_variables,)
