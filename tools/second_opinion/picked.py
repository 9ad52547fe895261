"""Scripts picked by hand, for messages to super, removes, doesNotUnderstand:, classes that move, the objects and actors that methods make,
looks at classes and actors, edits that are listed or are to replace a version, and waits for turns.

Each is a text: a command a line, and behind a `>` the reply to the last command, where it is said. These replies come from the
rules, and the second reader is held to them before it is compared with anything.

    class C S x y         a class C under S with the instance variables x and y
    method C source       actor C         remove C selector       move C S
    post 0 at:put: 1 2    run             run 5            close 0
    send 2 7 0 at:put: 1 2                the same post by client 2, with the number 7
    outcome 0 1           how turn 1 of actor 0 ended; without the 1, the last message that it got
    turn 0 at:put: 1 2    posts, runs all there is, and asks how that turn ended
    look classes          look methods C          look senders at:put:    look source C at:put:
    look actors 0 4096    the actors from 0 on, at most so many             look inspect 0        checkpoint
    look edits 3          replace C 7 source, over version 7
    save                  status                wait 0 1 20 E, for turn 1 of actor 0 of the epoch E, and 20 milliseconds
    fault 0 1             of turn 1 of actor 0  faults 7, behind step 7
"""

import json
from dataclasses import dataclass

from smalltalk.language import LONGEST_WORD

from . import picked_actors, picked_edits, picked_epochs, picked_failing, picked_inspecting, picked_looking, picked_lookup
from . import picked_mailboxes, picked_moves, picked_objects


@dataclass
class Picked:
    """What it asks may be of one run of the program."""

    says: str
    text: str
    quantum: int = 256
    capacity: int = 64
    is_of_one_run: bool = False


def all_picked():
    for texts in (
        picked_lookup.SUPER,
        picked_lookup.REMOVES,
        picked_lookup.MISSING,
        picked_moves.MOVES,
        picked_objects.OBJECTS,
        picked_actors.MAKING,
        picked_actors.POSTING,
        picked_mailboxes.CLOSING,
        picked_mailboxes.NUMBERS,
        picked_looking.LOOKING,
        picked_edits.LISTED,
        picked_edits.REPLACING,
        picked_failing.FAILING,
    ):
        for says, text in texts.items():
            yield Picked(says, text)
    for says, text in picked_epochs.EPOCHS.items():
        yield Picked(says, text, is_of_one_run=True)
    for texts in (picked_lookup.WHILE_RUNNING, picked_moves.WHILE_RUNNING, picked_looking.WHILE_RUNNING, picked_inspecting.INSPECTING):
        for says, text in texts.items():
            yield Picked(says, text, quantum=1)
    for texts in (picked_actors.FULL, picked_mailboxes.NARROW):
        for says, text in texts.items():
            yield Picked(says, text, capacity=1)
    yield Picked("the newest outcomes are kept", picked_mailboxes.KEPT)
    for quantum, text in picked_actors.QUANTA.items():
        yield Picked(f"outer steps in quanta of {quantum}", text, quantum=quantum)
    for quantum in (1, 2, 3, 4, 5, 6, 256):
        for capacity in (1, 2):
            yield Picked(f"posts in quanta of {quantum}", picked_actors.CUT, quantum, capacity)
    yield Picked("as many actors as there may be", picked_actors.MANY, capacity=1)


class Taker:
    """Takes the lines of a picked text, by the script that it fills; `wrong` are the replies that aren't those of the text."""

    def __init__(self, script):
        self.script = script
        self.wrong = []

    def take(self, text):
        for line in filter(None, map(str.strip, text.split("\n"))):
            kind, _, rest = line.partition(" ")
            getattr(self, "says" if kind == ">" else "take_" + kind)(rest)

    def says(self, reply):
        if self.script.replies[-1] != reply:
            self.wrong.append(f"{self.script.lines[-1]}: {self.script.replies[-1]} is not {reply}")

    def take_class(self, rest):
        name, above, *slots = rest.split()
        self.script.add({"cmd": "define", "name": name, "slots": slots, "super": above})

    def take_method(self, rest):
        class_name, _, source = rest.partition(" ")
        self.script.install(class_name, source)

    def take_replace(self, rest):
        class_name, over, source = rest.split(" ", 2)
        self.script.add({"class": class_name, "cmd": "replace", "over": int(over), "source": source})

    def take_remove(self, rest):
        class_name, selector = rest.replace("LONG", "n" * LONGEST_WORD).split()
        self.script.add({"class": class_name, "cmd": "remove", "selector": selector})

    def take_move(self, rest):
        class_name, above = rest.split()
        self.script.add({"class": class_name, "cmd": "reparent", "super": above})

    def take_look(self, rest):
        kind, *words = rest.split()
        if kind in ("actors", "edits", "inspect"):
            keys = ["actor"] if kind == "inspect" else ["from", "most"]
            self.script.add({"cmd": kind, **dict(zip(keys, map(int, words)))})
            return
        keys = {"methods": ["class"], "implementors": ["selector"], "senders": ["selector"]}.get(kind, ["class", "selector"])
        self.script.add({"cmd": kind, **dict(zip(keys, words))})

    def take_checkpoint(self, rest):
        self.script.add({"cmd": "checkpoint"})

    def take_save(self, rest):
        self.script.save()

    def take_status(self, rest):
        self.script.add({"cmd": "status"})

    def take_wait(self, rest):
        number, turn, milliseconds, epoch = rest.split(" ", 3)
        self.script.add({"actor": int(number), "cmd": "wait", "epoch": epoch, "ms": int(milliseconds), "turn": int(turn)})

    def take_actor(self, rest):
        self.script.add({"class": rest, "cmd": "actor"})

    def take_post(self, rest):
        number, selector, *arguments = rest.split()
        return self.script.post(int(number), selector, [json.loads(argument) for argument in arguments])

    def take_send(self, rest):
        sender, seq, number, selector, *arguments = rest.split()
        values = [json.loads(argument) for argument in arguments]
        self.script.send(int(sender), int(seq), int(number), selector, values)

    def take_close(self, rest):
        self.script.add({"actor": int(rest), "cmd": "close"})

    def take_run(self, rest):
        self.script.add({"cmd": "run", "quanta": int(rest)} if rest else {"cmd": "run"})

    def take_outcome(self, rest):
        number, *turn = (int(word) for word in rest.split())
        actors = self.script.image.actors
        last = actors[number].accepted if number < len(actors) else 1
        self.script.add({"actor": number, "cmd": "outcome", "turn": turn[0] if turn else last})

    def take_fault(self, rest):
        number, turn = map(int, rest.split())
        self.script.add({"actor": number, "cmd": "fault", "turn": turn})

    def take_faults(self, rest):
        self.script.ask_faults(int(rest))

    def take_turn(self, rest):
        reply = self.take_post(rest)
        if "ok" in reply:
            self.take_run("")
            self.take_outcome("%s %d" % (rest.split()[0], reply["ok"]["turn"]))
