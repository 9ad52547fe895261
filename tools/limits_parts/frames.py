"""Turns with many frames that have many temporaries."""

from scripts_parts.commands import actor, answer, fault, made, method, outcome
from scripts_parts.limits import slots

from . import most
from .program import same
from .session import Session

# The steps of a frame up to the send that opens the next one; behind that; and of the last frame, which sends nothing.
DOWN, UP, LAST = 15, 2, 9


def down(temporaries):
    """Adds the numbers up to n, each in the last temporary of a frame of its own."""
    *others, last = slots("t", temporaries)
    return f"down: n | {' '.join([*others, last])} | {last} := n. n = 1 ifTrue: [^{last}]. ^{last} + (self down: n - 1)"


def ends_with(count):
    """The steps of a turn with so many frames, and what it answers."""
    return 1 + (DOWN + UP) * (count - 1) + LAST, answer(count * (count + 1) // 2)


def calls_down(session, temporaries, count):
    """A turn of so many frames, and one more than there may be, in the run that `run` says; and one of one frame behind it."""
    session.edit(method("Object", down(temporaries)))
    for frames in (count, most.FRAMES):
        steps, ending = ends_with(frames)
        session.turn("down:", frames, steps=steps, ending=ending)
    session.turn("down:", most.FRAMES + 1, steps=1 + DOWN * most.FRAMES, ending=fault("stackOverflow"))
    steps, ending = ends_with(1)
    session.turn("down:", 1, steps=steps, ending=ending)


def deep_frames(program):
    """120 frames with 60 temporaries, and as many of both as there may be: an argument is one of 64 variables."""
    session = Session("deep_frames")
    session.ask(actor(), made(0))
    calls_down(session, 60, 120)
    calls_down(session, most.VARIABLES - 1, most.FRAMES)
    program.play(session)
    return f"{most.FRAMES} frames with {most.VARIABLES} variables"


def kept_frames(program):
    """A turn is saved at its deepest frame, and goes on in two sessions and behind a checkpoint. Its quanta have one step."""
    session = Session("kept_frames", quantum=1)
    session.edit(method("Object", down(most.VARIABLES - 1)))
    session.ask(actor(), made(0))
    session.post("down:", most.FRAMES)
    steps, ending = ends_with(most.FRAMES)
    deep = 1 + DOWN * (most.FRAMES - 1) + 1
    session.run(deep, deep, most=deep)
    program.keep(session)
    [frames] = [it["body"]["phase"]["frames"] for it in program.image()["actors"]]
    same("the number of frames", len(frames), most.FRAMES)
    same("the variables of each", [it["temps"][0] for it in frames], list(range(most.FRAMES, 0, -1)))
    same("how many there are", {len(it["temps"]) for it in frames}, {most.VARIABLES})
    loaded = Session("kept_frames, loaded", session, quantum=1)
    loaded.run(3, 3, most=3)
    loaded.checkpoint()
    loaded.run(steps - deep - 3, steps - deep - 3, most=steps)
    loaded.ask(outcome(0), ending)
    program.keep(loaded)
    return f"{most.FRAMES} frames with {most.VARIABLES} variables in a file"


TRIALS = (deep_frames, kept_frames)
