"""A client of actorimage: one file, with nothing beyond the standard library of Python 3.9.

    import actorimage

    with actorimage.connect("image.socket") as image:
        image.define("Counter", slots=["count"])
        image.install("Counter", "bump count isNil ifTrue: [count := 0]. count := count + 1. ^count")
        counter = image.new_actor("Counter")
        turn = image.sender(1).post(counter, "bump")
        print(image.wait(turn))

`connect` talks to a server over its Unix socket; `script` starts the program as a child, whose turns go on at `Image.run`. Either
gives an `Image`, whose methods are the commands of docs/PROTOCOL.md.

A refused command raises the refusal's exception, a subclass of `Refused` with its name (`Full`, `Old`, `BadSource`, ..), its fields
as attributes, and `stands`: what is true afterwards. A turn that ended with a fault raises `Fault` where its answer is asked for, with
the message that failed and the methods that ran. `Image.faults` tells which turns failed, whoever posted their messages.
Where the other side ends or is not there, `Ended` is raised. Then `Image.reconnect` connects again, and each sender goes on behind
its last message that the image has. `Sender.post_once` posts a message once, whatever breaks meanwhile.

A turn knows the epoch of the image in which its message was posted. Behind a checkpoint or a restart turns have other numbers, and
`Expired` is raised where such a turn is asked for: no answer is ever that of another message.

Values: integers of 64 bits, `True`, `False`, `None`, `Symbol("at:put:")`, `ClassName("Counter")` and `Actor(0)` are themselves in
arguments and in answers; in answers `Local(n)` is an object of the actor's own, which only the actor can use.
"""

from __future__ import annotations

import contextlib
import json
import os
import re
import socket
import subprocess
import threading
import time
from dataclasses import dataclass
from typing import Any, Callable, Iterable, Iterator, Mapping, Optional, Sequence, TextIO, Union

GREETING = 30.0  # Seconds that a server may take to say that it takes a session.
LONGEST_WAIT = 60.0  # Seconds of the longest `wait` of the protocol.
FIRST_FRAMES, LAST_FRAMES = 2, 5  # Of many frames of a fault these are shown,
MOST_SHOWN = 10  # of one of them so many variables,
WIDEST = 76  # and so many letters of a line of its source.


@dataclass(frozen=True)
class Symbol:
    """A symbol, as `#at:put:` is in a source."""
    name: str


@dataclass(frozen=True)
class ClassName:
    """A class, by its name."""
    name: str


@dataclass(frozen=True)
class Actor:
    """An actor, by its number."""
    number: int


@dataclass(frozen=True)
class Local:
    """An object of the actor that answered."""
    number: int


@dataclass(frozen=True)
class Turn:
    """The turn of a message: its actor, its position among the messages that the actor's mailbox accepted, and the image's epoch that
    was known before it was posted. Without one it is a turn of now, as `Turn(actor, 0)` behind a restart."""
    actor: Actor
    number: int
    epoch: Optional[str] = None


@dataclass(frozen=True)
class Site:
    """A call site in the statistics of a method: how many sends were committed there, and how they were found."""
    selector: str
    is_super: bool
    sends: int
    site: int
    lookup_cache: int
    walk: int
    state: str


@dataclass(frozen=True)
class Counted:
    """What an image has counted over all checkpoints and files: accepted messages of clients, and committed steps."""
    posts: int
    steps: int


@dataclass(frozen=True)
class Status:
    """How an image does: how many actors, classes, edits and names it has, how many edits it still takes, what the history holds and may
    hold, what was counted over all checkpoints and files, and the sessions and workers of the server. `epoch` is another text behind
    each checkpoint and each start. `faults` are the turns that have ended with a fault since the last checkpoint or start; `None` of a
    program that does not count them."""
    actors: int
    classes: int
    edits: int
    edits_left: int
    epoch: str
    history: int
    history_most: int
    names: int
    posts: int
    sessions: int
    steps: int
    workers: int
    faults: Optional[int] = None


@dataclass(frozen=True)
class Class:
    """A class: the one above it, `None` above Object, and how many methods and which instance variables it has of its own."""
    name: str
    superclass: Optional[str]
    methods: int
    slots: tuple[str, ...]


@dataclass(frozen=True)
class Method:
    """A method that a class has of its own, with the version that its install gave; `None` of a method of the kernel."""
    selector: str
    version: Optional[int]


@dataclass(frozen=True)
class Source:
    """The method that a message runs, and the class that has it. A method of the kernel has neither source nor version."""
    class_name: str
    source: Optional[str]
    version: Optional[int]


@dataclass(frozen=True)
class Version:
    """What was installed for a selector by an edit, and the version that this gave; `None` where the method was removed."""
    version: int
    source: Optional[str]


@dataclass(frozen=True)
class Defined:
    """The edit that defined a class, with its own instance variables."""
    name: str
    superclass: str
    slots: tuple[str, ...]


@dataclass(frozen=True)
class Installed:
    """The edit that installed a method."""
    class_name: str
    source: str


@dataclass(frozen=True)
class Removed:
    """The edit that removed a method."""
    class_name: str
    selector: str


@dataclass(frozen=True)
class Reparented:
    """The edit that put a class under another superclass."""
    class_name: str
    superclass: str


Edit = Union[Defined, Installed, Removed, Reparented]
Value = Union[int, bool, None, Symbol, ClassName, Actor, Local]
Reply = dict[str, Any]


@dataclass(frozen=True)
class Standing:
    """How an actor stands: its class, how many messages its mailbox accepted and how many of these it began, both counted as turns
    are, and whether the mailbox is open. `phase` is "fresh" before the first turn, "start" or "frames" in a turn, and "answer" or
    "fault" behind the last one. `answer` is the value behind an answer, `fault` the name of a fault, and `running` the class and the
    selector of the method that runs; each is `None` elsewhere."""
    actor: Actor
    class_name: str
    accepted: int
    begun: int
    is_open: bool
    phase: str
    answer: Value
    fault: Optional[str]
    running: Optional[tuple[str, str]]

    @property
    def waiting(self) -> int:
        """How many messages the mailbox holds."""
        return self.accepted - self.begun


@dataclass(frozen=True)
class Message:
    """A message that waits in a mailbox. `sender` is the number of a client, or the actor that posted it, and `seq` its own number for
    the message."""
    selector: str
    args: tuple[Value, ...]
    sender: Union[int, Actor]
    seq: int


@dataclass(frozen=True)
class Object:
    """An object of an actor, with the values of its instance variables, inherited ones first."""
    class_name: str
    slots: tuple[Value, ...]


@dataclass(frozen=True)
class Frame:
    """A method that has begun and not answered: the version of its install, the place of its next instruction, what `self` is, its
    arguments and then its temporaries, and its operands, the deepest first."""
    version: int
    pc: int
    receiver: Value
    temps: tuple[Value, ...]
    operands: tuple[Value, ...]


@dataclass(frozen=True)
class Inspected:
    """An actor as an image file has it: docs/FORMAT.md says what each part is. `last` is the number of the last message that it posted,
    `pending` what waits in its mailbox, the next one first, and `objects` are its own, of which the first is the actor itself. `turn` is
    the number of the turn that stands in it, 0 where it stood there at the last checkpoint or in the file, and `None` before the first
    one. `phase`, `answer` and `fault` are as in a `Standing`; `start` has the selector and the arguments of a message that was begun and
    has taken no step, and `frames` those of a turn that goes on, from the first to the running one."""
    actor: Actor
    class_name: str
    capacity: int
    last: int
    is_open: bool
    pending: tuple[Message, ...]
    objects: tuple[Object, ...]
    turn: Optional[int]
    phase: str
    start: Optional[tuple[str, tuple[Value, ...]]]
    frames: tuple[Frame, ...]
    answer: Value
    fault: Optional[str]


@dataclass(frozen=True)
class Sent:
    """A message that was sent: its selector and arguments, its receiver and the class of that. A message to `super` goes to `self`."""
    selector: str
    args: tuple[Value, ...]
    receiver: Value
    class_name: str
    is_super: bool


@dataclass(frozen=True)
class Activation:
    """A method that was open when its turn failed: the class that has it, its selector, its source and the version of its install; what
    `self` is, the class of that, and the values of its instance variables where it is an object of the actor; and the arguments and then
    the temporaries. At the byte `offset` of the source stands the selector of the send that it waits for, or that failed if it is the
    running one; `None` where that is not known."""
    holder: str
    selector: str
    source: str
    version: int
    receiver: Value
    class_name: str
    slots: tuple[Value, ...]
    temps: tuple[Value, ...]
    offset: Optional[int]


@dataclass(frozen=True)
class Failure:
    """How a turn came to end with a fault: how all stood just before the step that failed, of which `step` is the image's number.
    `frames` are the open methods, from the first to the running one; there are none where nothing understood the message of the turn.
    `send` is the message that failed. It is `None` of mustBeBoolean, which has the value that was tested."""
    fault: str
    step: int
    frames: tuple[Activation, ...]
    send: Optional[Sent]
    value: Value

    def message(self, actor: Callable[[int], str] = "actor {}".format) -> str:
        """What failed, as it is typed: the message, or of mustBeBoolean the value. `actor` names actors by their numbers."""
        words = _Words(self, actor)
        if self.send is None:
            return words.value(self.value)
        receiver = "super" if self.send.is_super else words.value(self.send.receiver)
        return f"{receiver} {words.message(self.send.selector, self.send.args)}"

    def lines(
        self,
        slots: Callable[[str], Sequence[str]] = lambda name: (),
        actor: Callable[[int], str] = "actor {}".format,
        notes: Callable[[Activation], Sequence[str]] = lambda frame: (),
    ) -> list[str]:
        """The frames, from the first to the running one, each with the line of its source where the send stands and a mark below that.
        Of many the first and the last are shown. `slots` names the instance variables of a class, inherited ones first; where it names
        none, their values stand alone. `notes` has lines to stand between a frame that is shown and its source."""
        words, between, found = _Words(self, actor), len(self.frames) - FIRST_FRAMES - LAST_FRAMES, []
        for place, it in enumerate(self.frames):
            if not FIRST_FRAMES <= place < FIRST_FRAMES + between:
                found += [words.frame(it, slots(it.class_name)), *notes(it), *(f"  {line}" for line in _marked(it.source, it.offset))]
            elif place == FIRST_FRAMES:
                found.append(f".. {between} more ..")
        return found


@dataclass(frozen=True)
class Failed:
    """A turn that ended with a fault, the fault's name, and the image's number of the step that failed."""
    turn: Turn
    fault: str
    step: int


@dataclass(frozen=True)
class Faults:
    """The turns that ended with a fault behind the step `since`, the oldest first, as far as they are kept. `steps` are all that the image
    has taken: who asks for those after them misses none. Where `since` is above the step that was asked for, some may be lost, since
    the newest 64 are kept, and none over a checkpoint or a start; where `steps` is below it, this is an older image."""
    failed: tuple[Failed, ...]
    since: int
    steps: int


class ActorImageError(Exception):
    """All errors of this module."""


class Ended(ActorImageError):
    """The other side ended or is not there, or sent what is no reply. Whether the last command was done is not known."""


class Fault(ActorImageError):
    """A turn ended with a fault. What it changed before stays, and the actor goes on with its next message. `failure` says how it came,
    with the message that failed in `send` and the open methods in `frames`; it is `None` where the image does not keep it any more."""

    def __init__(self, name: str, turn: Turn, failure: Optional[Failure] = None):
        super().__init__(name, turn, failure)
        self.name, self.turn, self.failure = name, turn, failure

    @property
    def frames(self) -> tuple[Activation, ...]:
        return self.failure.frames if self.failure else ()

    @property
    def send(self) -> Optional[Sent]:
        return self.failure.send if self.failure else None

    def __str__(self) -> str:
        said = f"fault {self.name} in turn {self.turn.number} of actor {self.turn.actor.number}"
        if not self.failure:
            return said
        return "\n  ".join([f"{said}: {self.failure.message()}", *self.failure.lines()])


class Refused(ActorImageError):
    """A refused command. `stands` says what is true afterwards, and what to do. `fields` has the further keys of the reply, which
    are attributes too. Nothing has changed, but that names which the command interned stay."""

    stands = "Nothing has changed."

    def __init_subclass__(cls, stands: str):
        cls.stands = stands

    def __init__(self, name: str, fields: Mapping[str, Any]):
        super().__init__(name, fields)
        self.name, self.fields = name, dict(fields)
        vars(self).update(self.fields)

    def __str__(self) -> str:
        said = ", ".join(f"{key} {value}" for key, value in self.fields.items())
        return f"{self.name} ({said}): {self.stands}" if said else f"{self.name}: {self.stands}"


class UnknownClass(Refused, stands="No class has this name: define it first."): ...
class ClassExists(Refused, stands="The class stays as it was defined: install methods, or take another name."): ...
class KernelClass(Refused, stands="A class of the kernel, Object aside, has no subclasses and no actors: take another."): ...
class KernelMethod(Refused, stands="The kernel's method stays in its class: take another selector, or a class of your own."): ...
class BadName(Refused, stands="A text is no name, or no selector: docs/PROTOCOL.md says what one is."): ...
class SlotClash(Refused, stands="An instance variable is named twice, here or in a class above: take another name."): ...
class TooDeep(Refused, stands="The chain of superclasses would be over 64 long: take one nearer to Object."): ...
class Cycle(Refused, stands="The superclass would be the class itself or one below it: take another."): ...
class SlotsDiffer(Refused, stands="The superclass has other instance variables than the old one, inherited ones counted."): ...
class NoSuchMethod(Refused, stands="The class has no such method of its own; for `source`, neither has one above it."): ...
class UnknownActor(Refused, stands="No actor has this number."): ...
class BadArguments(Refused, stands="The selector takes other arguments, or one of them names nothing; or no file is there to save in."): ...
class Closed(Refused, stands="The mailbox accepts nothing more. What it held may still be begun."): ...
class Full(Refused, stands="The message was not accepted, and its number is not used: post it again later."): ...
class Pending(Refused, stands="The turn has not ended, or there is no such turn yet: ask again."): ...
class Expired(Refused, stands="How the turn ended is no longer told: 64 of the actor ended since, or a checkpoint or a restart came."): ...
class HistoryFull(Refused, stands="The history is full: only questions are answered. Of a `run`, the quanta before ran."): ...
class BadCommand(Refused, stands="No command, or none for a server: its keys or numbers are not as docs/PROTOCOL.md says."): ...
class TooLong(Refused, stands="A line was over 8,192 bytes, and the session has ended: reconnect, and send shorter ones."): ...
class NoMemory(Refused, stands="The program found no memory. Of a `run`, the steps that were committed stay: try again."): ...
class ReadFault(Refused, stands="The program could not read, and the session has ended."): ...
class WriteFault(Refused, stands="The image is not saved: its file stays as it is, and the program says why on standard error."): ...
class BadSource(Refused, stands="The method that was there stays: `kind` and `offset` say what is wrong, and at which byte."):
    kind: str
    offset: int
class Old(Refused, stands="Not accepted now, but before if `last` is its number and the sender nobody else's. Go on above `last`."):
    last: int
class TooMany(Refused, stands="There are as many as there may be; `what` says of what."):
    what: str

    def __init__(self, name: str, fields: Mapping[str, Any]):
        super().__init__(name, fields)
        self.stands = MOST_OF.get(self.fields.get("what", ""), self.stands)
class BadImage(Refused, stands="The image file is malformed at `place`, and stays as it is."):
    place: str
class Stale(Refused, stands="The class has another version of the method, `version`, or none if that is 0: look at it first."):
    version: int


MOST_OF = {
    "classes": "The image has 1,024 classes with the kernel's 8, and keeps them: use those that are there.",
    "slots": "A class has at most 64 instance variables, with those that it inherits.",
    "edits": "2,048 since the program began, so start it anew on its file; or 4,096 in the image, so use bin/fewer-edits on the file.",
    "names": "The image has 8,192 selectors and symbols: use those that are there, or bin/fewer-names on its file.",
    "actors": "The image has 65,536 actors, and keeps them: use those that are there.",
    "sessions": "The server has 64 sessions, and this one has not begun: end another one, or try again later.",
}  # What `TooMany` means, by its `what`.
REFUSALS: dict[str, type[Refused]] = {kind.__name__: kind for kind in Refused.__subclasses__()}
FAULTS = {
    "badArgument": "a kernel method got an argument or a receiver that it cannot take; look at what is added, compared or posted there",
    "heapFull": "the actor has 1,024 objects, as many as it may; let it make fewer, or share the work among actors",
    "localArgument": "a message would take an object to another actor; send numbers, symbols or actors instead",
    "mustBeBoolean": "a condition was neither true nor false; look at what is asked before ifTrue:, whileTrue: and their like",
    "notUnderstood": "no class up the chain has a method for a message that was sent, or for the one that began the turn; define the "
    "method, or look for a slip in its name",
    "overflow": "a result has over 64 bits; let the numbers stay smaller",
    "stackOverflow": "128 methods were open at once; look for a recursion that does not end, or use a loop",
    "tooManyActors": "there are 65,536 actors, as many as there may be; let the old ones do more",
    "zeroDivide": "a number was divided by 0; ask before the division",
}  # What each fault means, and what to do.


def _refusal(reply: Reply) -> Refused:
    fields = dict(reply)
    return REFUSALS.get(name := fields.pop("error"), Refused)(name, fields)


def _sent(value: Value) -> Any:
    """A value as JSON."""
    if isinstance(value, Symbol):
        return {"sym": value.name}
    if isinstance(value, ClassName):
        return {"class": value.name}
    if isinstance(value, Actor):
        return {"ref": _number(value)}
    if value is None or isinstance(value, int):
        if value is None or -(2**63) <= value < 2**63:
            return value
        raise ValueError(f"{value} cannot be an argument: integers have 64 bits")
    hint = f"; a symbol is Symbol({value!r})" if isinstance(value, str) else ""
    raise TypeError(f"{value!r} cannot be an argument{hint}")


def _bounded(number: int, most: int, what: str) -> int:
    """A number that the protocol has a place for."""
    if isinstance(number, int) and not isinstance(number, bool) and 0 <= number <= most:
        return number
    raise ValueError(f"{number!r} cannot be {what}: these are whole numbers, 0 to {most:,}")


def _number(actor: Actor) -> int:
    if not isinstance(actor, Actor):
        raise TypeError(f"{actor!r} is no actor; write Actor(0) for actor 0")
    return _bounded(actor.number, 2**32 - 1, "the number of an actor")


def _standing(told: Reply) -> Standing:
    phase, running = told["phase"], told["running"]
    ended = phase if isinstance(phase, dict) else {}
    return Standing(
        Actor(told["actor"]),
        told["class"],
        told["accepted"],
        told["begun"],
        told["open"],
        next(iter(ended), phase),
        _received(ended.get("answer")),
        ended.get("fault"),
        running and (running["class"], running["selector"]),
    )


def _message(told: Reply) -> Message:
    sender = told["sender"]
    return Message(told["selector"], _all(told["args"]), sender if isinstance(sender, int) else _received(sender), told["seq"])


def _frame(told: Reply) -> Frame:
    return Frame(told["method"] + 1, told["pc"], _received(told["receiver"]), _all(told["temps"]), _all(told["operands"]))


def _inspected(actor: Actor, told: Reply) -> Inspected:
    phase = told["body"]["phase"]
    stands = phase if isinstance(phase, dict) else {}
    start = stands.get("start")
    return Inspected(
        actor,
        told["class"],
        told["capacity"],
        told["last"],
        told["open"],
        tuple(map(_message, told["pending"])),
        tuple(Object(it["class"], _all(it["slots"])) for it in told["body"]["objects"]),
        told["turn"],
        next(iter(stands), phase),
        start and (start["selector"], _all(start["args"])),
        tuple(map(_frame, stands.get("frames", ()))),
        _received(stands.get("answer")),
        stands.get("fault"),
    )


def failure(told: Reply) -> Failure:
    """What the command `fault` replies, where it tells how a fault came."""
    send = told.get("send")
    return Failure(
        told["fault"],
        told["step"],
        tuple(map(_activation, told["frames"])),
        send and Sent(send["selector"], _all(send["args"]), _received(send["receiver"]), send["class"], send["super"]),
        _received(told.get("value")),
    )


def _activation(told: Reply) -> Activation:
    return Activation(
        told["holder"],
        told["selector"],
        told["source"],
        told["method"] + 1,
        _received(told["receiver"]),
        told["class"],
        _all(told["slots"]),
        _all(told["temps"]),
        told["offset"],
    )


class _Words:
    """The values of a failure as Smalltalk prints them. `classes` has those of the actor's objects that the failure tells of, and `actor`
    names actors by their numbers."""

    def __init__(self, failure: Failure, actor: Callable[[int], str]):
        told = [*failure.frames, *([failure.send] if failure.send else [])]
        self.actor = actor
        self.classes = {it.receiver.number: it.class_name for it in told if isinstance(it.receiver, Local)}

    def value(self, value: Value) -> str:
        if isinstance(value, Symbol):
            return f"#{value.name}"
        if isinstance(value, ClassName):
            return value.name
        if isinstance(value, Actor):
            return self.actor(value.number)
        if isinstance(value, Local):
            return self.object(value.number)
        return "nil" if value is None else str(value).lower()

    def object(self, number: int) -> str:
        """The actor itself is object 0."""
        name = self.classes.get(number)
        if name is None:
            return f"object {number}"
        said = f"{'an' if name[0] in 'AEIOU' else 'a'} {name}"
        return f"{said} (object {number})" if number else said

    def message(self, selector: str, args: Sequence[Value]) -> str:
        """A message as it is typed."""
        words = [f"{word}:" for word in selector.split(":")[:-1]] if ":" in selector else [selector]
        return " ".join(f"{word} {self.value(it)}" for word, it in zip(words, args)) if args else selector

    def frame(self, frame: Activation, slots: Sequence[str]) -> str:
        """A method with its arguments, and what it runs in with the values of the variables there."""
        count = frame.selector.count(":") if frame.selector[0].isalpha() else 1
        args, temps = frame.temps[:count], frame.temps[count:]
        begun = f"{frame.holder} >> {self.message(frame.selector, args)}    {self.value(frame.receiver)}"
        own = f", {self.named(slots, frame.slots)}" if slots else f" with {self.named((), frame.slots)}"
        return begun + (own if frame.slots else "") + (f"; {self.named(_temporaries(frame, count), temps)}" if temps else "")

    def named(self, names: Sequence[str], values: Sequence[Value]) -> str:
        """Values behind their names."""
        shown = [" ".join([*names[place : place + 1], self.value(it)]) for place, it in enumerate(values[:MOST_SHOWN])]
        return ", ".join(shown + [".."] * (len(values) > MOST_SHOWN))


def _temporaries(frame: Activation, count: int) -> list[str]:
    """The names of the temporaries of a method that takes so many arguments: they stand between bars behind its pattern."""
    words = [it for it in re.findall(r'"[^"]*"|[A-Za-z][A-Za-z0-9]*:?|\S', frame.source) if it[0] != '"']
    pattern = 2 * count if ":" in frame.selector else len(frame.selector) + 1 if count else 1
    return words[pattern + 1 : pattern + 1 + len(frame.temps) - count]


def _marked(source: str, offset: Optional[int]) -> list[str]:
    """The line of a source where a byte stands, with those above and below it, and a mark under the byte; the first line where no byte is
    known. Sources are ASCII."""
    lines = [re.sub(r"\s", " ", line) for line in source.split("\n")]
    if offset is None:
        return [_cut(lines[0])]
    at, column = source.count("\n", 0, offset), offset - source.rfind("\n", 0, offset) - 1
    before, line, behind = lines[max(0, at - 1) : at], lines[at], lines[at + 1 : at + 2]
    blank = min(len(it) - len(it.lstrip()) for it in (*before, line, *behind) if it.strip())
    # Of a long line the beginning is left out where the place would be near the end of what is shown.
    first = column - WIDEST // 2 if len(line) - blank > WIDEST and column - blank > 2 * WIDEST // 3 else blank
    left = ".." if first > blank else ""
    marked = [left + _cut(line[first:]), " " * (len(left) + column - first) + "^"]
    return [*(_cut(it[blank:]) for it in before), *marked, *(_cut(it[blank:]) for it in behind)]


def _cut(line: str) -> str:
    return (line if len(line) <= WIDEST else line[: WIDEST - 2] + "..").rstrip()


def _edit(told: Reply) -> Edit:
    """An edit as an image file has it."""
    ((kind, of),) = told.items()
    if kind == "define":
        return Defined(of["name"], of["super"], tuple(of["slots"]))
    if kind == "install":
        return Installed(of["class"], of["source"])
    return Removed(of["class"], of["selector"]) if kind == "remove" else Reparented(of["class"], of["super"])


def _received(value: Any) -> Value:
    """A value of JSON."""
    if not isinstance(value, dict):
        return value
    ((kind, of),) = value.items()
    return {"sym": Symbol, "class": ClassName, "ref": Actor, "local": Local}[kind](of)


def _all(values: Iterable[Any]) -> tuple[Value, ...]:
    return tuple(map(_received, values))


@dataclass
class _Line:
    """The way to the other side: replies in, commands out, and what ends it."""
    replies: TextIO
    commands: TextIO
    end: Callable[[], None]

    def write(self, command: Reply) -> None:
        """A side that has ended may have said why, so its reply is read even if it does not take the command."""
        text = json.dumps(command, separators=(",", ":"), sort_keys=True)
        with contextlib.suppress(OSError):
            self.commands.write(text + "\n")

    def read(self) -> Reply:
        with contextlib.suppress(OSError):
            self.commands.flush()
        try:
            line = self.replies.readline()
            reply = json.loads(line) if line.endswith("\n") else None
        except (OSError, ValueError) as error:
            raise Ended(str(error)) from None
        if not isinstance(reply, dict):
            raise Ended("no whole reply came")
        return reply


class Image:
    """An image at the other end. Use `script` or `connect`. Threads may share it: their commands are sent one after the other.
    `connections` counts those that were made. `_waiting` is how many replies are to come, `_epoch` the last epoch that was told, if it
    may go on, and `_longest` the seconds after which a reply that waits for a turn comes at the latest."""
    def __init__(self, open_line: Callable[[], _Line], seconds: float = 0.0, longest: float = LONGEST_WAIT):
        self._open, self._lock, self._longest = open_line, threading.RLock(), longest
        self._line: Optional[_Line] = None
        self._epoch: Optional[str] = None
        self._waiting = self.connections = 0
        self.reconnect(seconds)

    def __enter__(self) -> Image:
        return self

    def __exit__(self, kind: Optional[type[BaseException]], *_: object) -> None:
        with contextlib.suppress(*[Ended] if kind else []):
            self.end()

    def end(self) -> None:
        """Ends the session. Where a script does not end well, as one that cannot save its image, `Ended` is raised."""
        with self._lock:
            line, self._line = self._line, None
        if line:
            line.end()

    def reconnect(self, seconds: float = 60.0) -> None:
        """Connects again, and tries for so many seconds where no server takes a session. A script is started again: one with
        `--image` saves its image, and goes on with it. Senders go on behind their last messages that the image has. Beyond that the
        image may be another one; turns of one from a file are numbered anew."""
        with self._lock:
            self.end()
            until = time.monotonic() + seconds
            while self._line is None:
                try:
                    self._line = self._open()
                except (Ended, TooMany):
                    if time.monotonic() >= until:
                        raise
                    time.sleep(0.05)
            self._waiting, self._epoch = 0, None
            self.connections += 1

    # ---- lines

    def _ready(self) -> _Line:
        if self._line is None:
            raise Ended("the session has ended: reconnect")
        if self._waiting:
            raise ActorImageError("not all that `post_all` gives was read, or a command was broken off: read it, or reconnect")
        return self._line

    def _read(self, line: _Line) -> Union[Reply, Refused]:
        try:
            reply = line.read()
        except Ended:
            self._line = None
            with contextlib.suppress(Ended):
                line.end()
            raise
        self._waiting -= 1
        return _refusal(reply) if "error" in reply else reply["ok"]

    def ask(self, command: Reply) -> Reply:
        """Sends any command, and gives what its reply has for `ok`; a refusal is raised."""
        with self._lock:
            line = self._ready()
            line.write(command)
            self._waiting += 1
            told = self._read(line)
        if isinstance(told, Refused):
            raise told
        return told

    def ask_all(self, commands: Iterable[Reply], window: int = 100) -> Iterator[Union[Reply, Refused]]:
        """Sends many commands, at most `window` of them before a reply that is not read yet, and gives each reply's `ok`, or its
        refusal, which is not raised. Where `commands` raises, what was sent before has its replies first. Other threads wait until all
        was given."""
        if not isinstance(window, int) or window < 1:
            raise ValueError(f"{window!r} cannot be a window: one command at least is sent before its reply is read")
        with self._lock:
            line, failed = self._ready(), None
            try:
                coming = iter(commands)
                while True:
                    # What is read may decide whether there is another command.
                    if self._waiting == window:
                        yield self._read(line)
                    try:
                        command = next(coming, None)
                    except Exception as error:
                        command, failed = None, error
                    if command is None:
                        break
                    line.write(command)
                    self._waiting += 1
                while self._waiting:
                    yield self._read(line)
                if failed:
                    raise failed
            finally:
                # After a break in a loop the rest is passed over, so that the next command gets its own reply.
                while self._waiting and line is self._line:
                    self._read(line)

    # ---- classes

    def define(self, name: str, superclass: str = "Object", slots: Sequence[str] = ()) -> int:
        """Defines a class with these instance variables of its own. Gives the new version: the number of edits so far."""
        return self.ask({"cmd": "define", "name": name, "super": superclass, "slots": list(slots)})["version"]

    def install(self, class_name: str, source: str) -> int:
        """Installs a method, or replaces it, from the next send on. Gives the new version."""
        return self.ask({"cmd": "method", "class": class_name, "source": source})["version"]

    def replace(self, class_name: str, source: str, over: int) -> int:
        """As `install`, where the class's own method for the selector of the source has this version; 0 where it has none of its own, or
        the kernel's. `Stale` is raised where it has another one, so that nobody's edit is overwritten unseen."""
        return self.ask({"cmd": "replace", "class": class_name, "source": source, "over": over})["version"]

    def remove(self, class_name: str, selector: str) -> int:
        """Removes a method, from the next send on. Gives the new version."""
        return self.ask({"cmd": "remove", "class": class_name, "selector": selector})["version"]

    def reparent(self, class_name: str, superclass: str) -> int:
        """Puts a class under another superclass, from the next send on. Gives the new version."""
        return self.ask({"cmd": "reparent", "class": class_name, "super": superclass})["version"]

    def stats(self, class_name: str, selector: str) -> list[Site]:
        """The call sites of a method, in the order of its code."""
        return [
            Site(it["selector"], it["super"], it["sends"], it["site"], it["global"], it["walk"], it["state"])
            for it in self.ask({"cmd": "stats", "class": class_name, "selector": selector})["sites"]
        ]

    def checkpoint(self) -> Counted:
        """Empties the history, and gives what was counted so far. How turns ended is forgotten, and they are numbered anew: in each
        actor the turn that stands there is turn 0, and its pending messages are turns 1 and on."""
        counted = self.ask({"cmd": "checkpoint"})
        self._epoch = None
        return Counted(counted["posts"], counted["steps"])

    def save(self) -> int:
        """Saves the image in the file of `--image`, and gives the bytes of that file, which are on the disk then; all goes on meanwhile.
        `BadArguments` is raised where the program has no such file, and `WriteFault` or `NoMemory` where it could not save."""
        return self.ask({"cmd": "save"})["bytes"]

    # ---- looks, which change nothing

    def status(self) -> Status:
        """How the image does."""
        status = Status(**self.ask({"cmd": "status"}))
        self._epoch = status.epoch
        return status

    def faults(self, after: int = 0) -> Faults:
        """The turns that ended with a fault behind a step, as far as they are kept. `BadCommand` is raised by a program that keeps none."""
        told = self.ask({"cmd": "faults", "after": _bounded(after, 2**64 - 1, "the number of a step")})
        failed = tuple(Failed(Turn(Actor(it["actor"]), it["turn"]), it["fault"], it["step"]) for it in told["faults"])
        return Faults(failed, told["from"], told["steps"])

    def fault(self, actor: Actor, turn: int) -> Optional[Failure]:
        """How a turn came to end with a fault; `None` if it answered, or if that is not kept any more. The refusals are those of
        `answer`, and `BadCommand` where the program keeps none."""
        number = _bounded(turn, 2**64 - 1, "the number of a turn")
        told = self.ask({"cmd": "fault", "actor": _number(actor), "turn": number})
        return failure(told) if "frames" in told else None

    def edits(self, first: int = 0) -> Iterator[Edit]:
        """The edits behind the first so many, in their order, up to the last: the one at place n, from 1, made version n. They are asked
        for by 256. `BadArguments` is raised where the image has fewer edits."""
        version = None
        while version is None or first < version:
            told = self.ask({"cmd": "edits", "from": first})
            first, version = first + len(told["edits"]), told["version"]
            yield from map(_edit, told["edits"])

    def classes(self) -> list[Class]:
        """All classes, by their numbers, the kernel's first."""
        return [Class(it["name"], it["super"], it["methods"], tuple(it["slots"])) for it in self.ask({"cmd": "classes"})["classes"]]

    def methods(self, class_name: str) -> list[Method]:
        """The methods that a class has of its own, by the numbers of their selectors."""
        return [Method(it["selector"], it.get("version")) for it in self.ask({"cmd": "methods", "class": class_name})["methods"]]

    def source(self, class_name: str, selector: str) -> Source:
        """What a message to an object of the class runs. `NoSuchMethod` is raised where no class up the chain has a method for it."""
        it = self.ask({"cmd": "source", "class": class_name, "selector": selector})
        return Source(it["class"], it.get("source"), it.get("version"))

    def versions(self, class_name: str, selector: str) -> list[Version]:
        """Each install and removal of a class's own method for a selector, the oldest first."""
        told = self.ask({"cmd": "versions", "class": class_name, "selector": selector})["versions"]
        return [Version(it["version"], it.get("source")) for it in told]

    def implementors(self, selector: str) -> list[str]:
        """The names of the classes that have a method of their own for a selector, by the numbers of the classes."""
        return self.ask({"cmd": "implementors", "selector": selector})["classes"]

    def senders(self, selector: str) -> list[tuple[str, str]]:
        """The methods that are installed and send a selector, each as its class and its own selector, by their versions."""
        return [(it["class"], it["selector"]) for it in self.ask({"cmd": "senders", "selector": selector})["methods"]]

    def actors(self, first: int = 0, most: int = 4_096) -> list[Standing]:
        """How the actors stand from a number on, so many of them at most: 1 to 4,096. Fewer are given where there are no more."""
        return [_standing(it) for it in self.ask({"cmd": "actors", "from": first, "most": most})["actors"]]

    def inspect(self, actor: Actor) -> Inspected:
        """An actor with its mailbox, its objects and its turn. In a server it is that of one moment, between two quanta of the actor."""
        return _inspected(actor, self.ask({"cmd": "inspect", "actor": _number(actor)}))

    # ---- actors

    def new_actor(self, class_name: str) -> Actor:
        """A new actor of a class."""
        return Actor(self.ask({"cmd": "actor", "class": class_name})["actor"])

    def close(self, actor: Actor) -> None:
        """Closes an actor's mailbox: it accepts nothing more, and what it holds is still begun."""
        self.ask({"cmd": "close", "actor": _number(actor)})

    def sender(self, number: int, last: Optional[int] = None) -> Sender:
        """A sender of messages, 0 to 65,535. The image is asked for the last number that it has of it, unless `last` is given."""
        return Sender(self, number, last)

    def last_of(self, sender: int) -> int:
        """The last number that was accepted of a sender, 0 if none was: a message with the number 0 is refused as `Old`."""
        try:
            self.ask({"cmd": "post", "actor": 0, "selector": "isNil", "args": [], "sender": sender, "seq": 0})
        except Old as old:
            return old.last
        except UnknownActor:
            return 0
        raise Ended("a message of the number 0 was accepted")

    # ---- turns

    def run(self, quanta: int = 1_000) -> tuple[int, int]:
        """Takes so many quanta, or fewer if no actor is ready, and gives how many quanta and steps they were. A server runs by
        itself, and takes no such command."""
        ran = self.ask({"cmd": "run", "quanta": quanta})
        return ran["quanta"], ran["steps"]

    def epoch(self) -> str:
        """The epoch of a moment before: a message that is posted now is of this one or of a later one. The image is asked for it once,
        and again behind a checkpoint or a new connection that is known of."""
        return self._epoch or self.status().epoch

    def answer(self, turn: Turn) -> Value:
        """What a turn answered. `Fault`, `Pending` or `Expired` is raised where it did not, or where it is not known."""
        return self.wait(turn, 0)

    def wait(self, turn: Turn, seconds: float = 60.0) -> Value:
        """As `answer`, but waits for so many seconds until a pending turn has ended. `Pending` is raised then; a script, which runs
        nothing meanwhile, answers so at once. Other threads' commands to this image wait as long, a minute at a time."""
        left = max(0.0, seconds)
        while left > self._longest:
            with contextlib.suppress(Pending):
                return self._wait(turn, self._longest)
            left -= self._longest
        return self._wait(turn, left)

    def _wait(self, turn: Turn, seconds: float) -> Value:
        number = _bounded(turn.number, 2**64 - 1, "the number of a turn")
        command = {"cmd": "wait", "actor": _number(turn.actor), "turn": number, "ms": round(1_000 * seconds)}
        try:
            told = self.ask(command := {**command, "epoch": turn.epoch or self.status().epoch})
        except Expired:
            # Perhaps since there is another epoch, of which the next message is to be.
            self._epoch = None
            raise
        if "fault" in told:
            raise Fault(told["fault"], turn, self._failure(command))
        return _received(told["answer"])

    def _failure(self, wait: Reply) -> Optional[Failure]:
        """How the turn that was waited for came to end with a fault, if that is kept. The image is asked by the epoch once more: if that is
        the same still, this is told of no other turn."""
        asked = {"cmd": "fault", "actor": wait["actor"], "turn": wait["turn"]}
        told, again = self.ask_all([asked, {**wait, "ms": 0}])
        if isinstance(told, Refused) or isinstance(again, Refused) or "frames" not in told:
            return None
        return failure(told)


class Sender:
    """A sender of messages. It numbers them: each has the next number, and the number of a refused one is used again, so a message
    that was refused as Full is not lost where it is posted again."""

    def __init__(self, image: Image, number: int, last: Optional[int] = None):
        self.image, self.number = image, _bounded(number, 65_535, "the number of a sender")
        self._learn(image.last_of(number) if last is None else last)

    def _learn(self, last: int) -> None:
        self._last, self._connection = last, self.image.connections

    @property
    def last(self) -> int:
        """The last number that was used: that of the last message that was accepted, or that `post_all` sent later and that was refused.
        Behind a new connection the image is asked for it, and tells the last that it accepted."""
        if self._connection != self.image.connections:
            self._learn(self.image.last_of(self.number))
        return self._last

    def _post(self, actor: Actor, selector: str, args: Sequence[Value], seq: int) -> Reply:
        given = [_sent(it) for it in args]
        _bounded(seq, 2**64 - 1, f"the number of a message, of which sender {self.number} has no more")
        return {"cmd": "post", "actor": _number(actor), "selector": selector, "args": given, "sender": self.number, "seq": seq}

    def post(self, actor: Actor, selector: str, *args: Value) -> Turn:
        """Posts a message. Gives its turn."""
        epoch, seq = self.image.epoch(), self.last + 1
        try:
            turn = self.image.ask(self._post(actor, selector, args, seq))["turn"]
        except Old as old:
            self._learn(old.last)
            raise
        self._learn(seq)
        return Turn(actor, turn, epoch)

    def post_once(self, actor: Actor, selector: str, *args: Value, seconds: float = 60.0) -> Optional[Turn]:
        """Posts a message, and reconnects for so many seconds where the connection breaks meanwhile, but has it accepted once, if
        nobody else is this sender. Gives its turn; `None` where it was accepted and the reply was lost."""
        is_again, number = False, 0
        while True:
            try:
                if 0 < number <= self.last:
                    return None
                is_again, number = 0 < number, self.last + 1
                return self.post(actor, selector, *args)
            except Old:
                if not is_again:
                    raise
                return None
            except Ended:
                self.image.reconnect(seconds)

    def post_all(
        self, messages: Iterable[tuple], window: int = 100, stop_at_full: bool = False
    ) -> Iterator[Union[Turn, Refused]]:
        """Posts many messages, each an actor, a selector and arguments, at most `window` of them ahead of the replies that are read.
        Gives for each its turn, or its refusal. The number of a refused one stays unused. A message behind one that was refused as
        `Full` may be accepted. One that cannot be sent, as behind the last number that there is, raises once all before it have their
        replies. With `stop_at_full` none is taken from `messages` once `Full` was read; those that were sent ahead, none with a window
        of 1, have their replies still."""
        actors: list[Actor] = []
        is_full = False

        def commands() -> Iterator[Reply]:
            for actor, selector, *args in messages:
                command = self._post(actor, selector, args, self._last + 1)
                actors.append(actor)
                self._last += 1
                yield command
                if is_full:
                    return

        self._learn(self.last)
        epoch = self.image.epoch()
        for place, told in enumerate(self.image.ask_all(commands(), window)):
            if isinstance(told, Old):
                self._last = max(self._last, told.last)
            is_full = is_full or stop_at_full and isinstance(told, Full)
            yield told if isinstance(told, Refused) else Turn(actors[place], told["turn"], epoch)


def script(program: str, *options: str) -> Image:
    """Starts the program as a child, with options such as `"--quantum", "1024"`, and gives its image. A Ctrl-C does not reach it, so
    that an image of `--image` is saved in the end."""

    def opened() -> _Line:
        pipes: dict[str, Any] = {"stdin": subprocess.PIPE, "stdout": subprocess.PIPE, "encoding": "utf-8"}
        child = subprocess.Popen([program, "script", *options], **pipes, start_new_session=True)
        assert child.stdin and child.stdout

        def end() -> None:
            for it in (child.stdin, child.stdout):
                with contextlib.suppress(OSError):
                    it.close()
            if child.wait():
                raise Ended(f"the program ended with status {child.returncode}")

        return _Line(child.stdout, child.stdin, end)

    return Image(opened)


def connect(path: str, seconds: float = 0.0, timeout: Optional[float] = None, operator: bool = False) -> Image:
    """Connects to a server by the path of its Unix socket, and gives its image. Where no server takes a session, it is tried again
    for so many seconds; then `Ended` is raised, or `TooMany` for one that has as many sessions as it may. One place more is kept for
    an `operator`. A reply that does not come for `timeout` seconds ends the session."""

    def opened() -> _Line:
        stream = socket.socket(socket.AF_UNIX)
        if operator:
            stream.bind(b"\0actorimage.operator." + os.urandom(8).hex().encode())
        replies, commands = (stream.makefile(mode, encoding="utf-8", newline="\n") for mode in "rw")

        def end() -> None:
            for it in (commands, replies, stream):
                with contextlib.suppress(OSError):
                    it.close()

        line = _Line(replies, commands, end)
        try:
            stream.settimeout(GREETING if timeout is None else min(GREETING, timeout))
            stream.connect(path)
            _greet(line)
            stream.settimeout(timeout)
        except OSError as error:
            end()
            raise Ended(f"no server listens at {path} ({error.strerror or error})") from None
        except BaseException:
            end()
            raise
        return line

    return Image(opened, seconds, LONGEST_WAIT if timeout is None else min(LONGEST_WAIT, timeout / 2))


def _greet(line: _Line) -> None:
    """Learns whether a session was taken: then it is told how the image does."""
    line.write({"cmd": "status"})
    reply = line.read()
    if "epoch" not in reply.get("ok", {}):
        raise _refusal(reply) if "error" in reply else Ended("what replies is no server of actorimage")
