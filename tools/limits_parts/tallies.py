"""What is counted of call sites: places for the instructions of a method that has sent something, and no more."""

from scripts_parts.commands import actor, answer, define, made, method
from scripts_parts.limits import name
from scripts_parts.running import Wrong

from .session import Session, site

FEW, MANY = 20, 520
# The bytes that a method may take, with its source, its code and its places. Some thousand places would take more.
METHOD = 64 * 1024
# The sends of a long method, and the bytes that one may take that never runs: its source, its code, and a row without places. A place for
# each of its instructions would take 6,500 bytes more.
SENDS, IDLE = 100, 12 * 1024


def methods(count):
    """So many methods of four instructions, of which the last one is run. All are there behind its commit, with what is counted of them."""
    session = Session(f"{count} methods")
    session.edit(define("M"))
    for number in range(count):
        session.edit(method("M", f"{name('m', number)} ^{number} + 1"))
    session.ask(actor("M"), made(0))
    session.turn(name("m", count - 1), steps=5, ending=answer(count))
    session.sites("M", name("m", count - 1), [site("+", walk=1)])
    return session


def bytes_of_each(program, image, most):
    """The bytes that one method of an image takes, which are to be no more than the most."""
    each = (program.measured(image(MANY)) - program.measured(image(FEW))) / (MANY - FEW)
    if each > most:
        raise Wrong(f"a method takes {each:,.0f} bytes, over {most:,}")
    return f"{each:,.0f} bytes for each of {MANY - FEW} methods"


def memory_of_tallies(program):
    return bytes_of_each(program, methods, METHOD)


def idle_methods(count):
    """So many long methods, of which none runs, and a short one behind them that does."""
    session = Session(f"{count} methods that never run")
    session.edit(define("M"))
    for number in range(count):
        session.edit(method("M", f"{name('m', number)} ^0{' + 1' * SENDS}"))
    session.edit(method("M", "last ^1 + 1"))
    session.ask(actor("M"), made(0))
    session.turn("last", steps=5, ending=answer(2))
    return session


def memory_of_idle_methods(program):
    return bytes_of_each(program, idle_methods, IDLE)


TRIALS = (memory_of_tallies, memory_of_idle_methods)
