"""Scripts of commands with the replies that the second reader gives: what is compared with the program's."""

import json
import random

from common.compact import compact
from smalltalk.language import KERNEL_SELECTORS, arguments_of

from .image import Image, TooManySteps
from .looks import Looks
from .machine import Message
from .names import names_in
from .picked import Taker, all_picked
from .replaces import Replaces
from .short import short_sources
from .sources import Sources
from .waits import Waits, some_actor, some_turn
from .words import ACTING, CALLING, GOOD

SETUP = [
    {"cmd": "define", "name": "A", "slots": ["count", "total"], "super": "Object"},
    {"cmd": "define", "name": "B", "slots": ["extra"], "super": "A"},
    {"cmd": "define", "name": "C", "slots": ["more"], "super": "B"},
    {"cmd": "define", "name": "D", "slots": [], "super": "A"},
    {"cmd": "define", "name": "E", "slots": [], "super": "B"},
    {"class": "A", "cmd": "actor"},
    {"class": "B", "cmd": "actor"},
    {"class": "C", "cmd": "actor"},
]

# A script stays below the limits of the image, which are tried elsewhere: names, edits, and the bytes of a line.
MOST_NAMES = 7500
MOST_EDITS = 2000
MOST_LINE = 8000
# A turn of more steps is not posted where turns are run to their end.
MOST_STEPS = 4000
# A script with more actors is long enough.
MOST_ACTORS = 60

ARGUMENTS = [0, 1, 2, 3, -1, 5, 2**63 - 1, -(2**63), True, False, None]
ARGUMENTS += [{"sym": "a"}, {"sym": "at:put:"}, {"ref": 0}, {"ref": 1}, {"ref": 2}, {"class": "A"}, {"class": "SmallInteger"}]

# What a remove may name beside the methods of a class.
REMOVED = KERNEL_SELECTORS["Object"] + KERNEL_SELECTORS["ActorRef"] + KERNEL_SELECTORS["Class"]
REMOVED += ("foo", "bar", "neverSeen", "+", "a:b", "")

CLASSES_TO_EDIT = "A A A A B B B C C D E Object Object SmallInteger Symbol True UndefinedObject Class ActorRef".split()
# What may stand under what: B under A and D, and C under B and E.
CLASSES_TO_MOVE = "B B B C C C D E A Object True Nowhere".split()
CLASSES_ABOVE = "A A D D B B E E C Object Symbol Nowhere".split()
OTHER_CLASSES = "Object Object SmallInteger SmallInteger True False Symbol UndefinedObject ActorRef Class".split()


class Script:
    """The lines of a script, and the replies to them by the second reader, which has taken each command as it was added."""

    def __init__(self, quantum=256, capacity=64, setup=SETUP):
        self.quantum = quantum
        self.capacity = capacity
        self.image = Image(quantum, capacity)
        self.commands = []
        self.lines = []
        self.replies = []
        self.names = set()
        self.wrong = []
        self.sources = 0
        self.turns = 0
        for command in setup:
            self.add(command)

    def add(self, command, plain=False):
        """Adds a command and its reply, which is answered. A plain line has its characters as they are."""
        reply = self.image.reply(command)
        self.commands.append(command)
        self.lines.append(json.dumps(command, ensure_ascii=not plain))
        self.replies.append(compact(reply))
        return reply

    def has_room(self):
        room = len(self.names) < MOST_NAMES and self.image.classes.edits < MOST_EDITS
        return room and len(self.image.actors) < MOST_ACTORS

    def install(self, class_name, source, plain=False, over=None):
        """The method, where the source is accepted. One that is over a version is over the one that is told, if that is Stale."""
        command = {"class": class_name, "cmd": "method", "source": source}
        if over is not None:
            command = {**command, "cmd": "replace", "over": over}
        if len(json.dumps(command)) > MOST_LINE:
            return None
        self.sources += 1
        reply = self.add(command, plain)
        if reply.get("error") == "Stale":
            reply = self.add({**command, "over": reply["version"]}, plain)
        if "ok" not in reply:
            return None
        method = self.image.installed
        self.names.update(names_in(method))
        return method

    def remove(self, rng, class_name):
        """Mostly a method of the class's own."""
        own = list(self.image.classes.all[self.image.classes.numbers[class_name]].methods)
        selector = rng.choice(own) if own and rng.random() < 0.75 else rng.choice(REMOVED)
        self.add({"class": class_name, "cmd": "remove", "selector": selector})

    def reparent(self, rng):
        self.add({"class": rng.choice(CLASSES_TO_MOVE), "cmd": "reparent", "super": rng.choice(CLASSES_ABOVE)})

    def save(self):
        self.add({"cmd": "save"})

    def ask_faults(self, after):
        self.add({"after": after, "cmd": "faults"})

    def post(self, number, selector, arguments):
        return self.send(1, len(self.lines) + 1, number, selector, arguments)

    def send(self, sender, seq, number, selector, arguments):
        self.names.add(selector)
        post = {"actor": number, "args": arguments, "cmd": "post", "selector": selector, "sender": sender, "seq": seq}
        reply = self.add(post)
        self.turns += "ok" in reply
        return reply

    def run_turn(self, number, selector, arguments):
        """Posts, runs all there is, and asks how it ended, and what it failed at; nothing where the turn would take too long."""
        if self.ends(number, selector, arguments):
            reply = self.post(number, selector, arguments)
            if "ok" in reply:
                self.add({"cmd": "run"})
                asked = {"actor": number, "turn": reply["ok"]["turn"]}
                ended = self.add({**asked, "cmd": "outcome"})
                if "fault" in ended.get("ok", ()):
                    self.add({**asked, "cmd": "fault"})

    def ends(self, number, selector, arguments):
        """Whether all actors come to rest after the post."""
        trial = self.image.copy()
        trial.patience = MOST_STEPS
        try:
            trial.deliver(number, Message(selector, [trial.value(argument) for argument in arguments]))
            trial.run({})
        except TooManySteps:
            return False
        return not trial.ready


def picked_scripts():
    """Those picked by hand, with what the second reader replies there against the rules."""
    for picked in all_picked():
        script = Script(picked.quantum, picked.capacity, setup=())
        taker = Taker(script)
        taker.take(picked.text)
        script.wrong = [f"{picked.says}: {wrong}" for wrong in taker.wrong]
        yield script


def known_script():
    """The good sources, each run at once, in all three classes."""
    script = Script()
    for number, class_name in enumerate("ABC"):
        for source in GOOD + CALLING + ACTING:
            method = script.install(class_name, source)
            if method:
                script.run_turn(number, method.selector, list(range(2, 2 + method.arguments)))
    return script


def short_scripts():
    """All short sources; those that are accepted without arguments are run."""
    script = Script()
    for source in short_sources():
        method = script.install("A", source)
        if method and method.arguments == 0:
            script.run_turn(0, method.selector, [])
        if not script.has_room() or script.sources >= 5000:
            yield script
            script = Script()
    yield script


def random_arguments(rng, count):
    return [rng.choice(ARGUMENTS) for _ in range(count)]


def drawn_apart(rng):
    """What draws as another does from here on, and takes nothing from it."""
    apart = random.Random()
    apart.setstate(rng.getstate())
    return apart


def random_script(rng, sources, size):
    """Random sources, each accepted one run at once. Behind edits the classes are looked at, and some edits are to replace a version."""
    script = Script(rng.choice([256, 256, 256, 256, 1, 2, 5, 16, 255, 1024]))
    apart = drawn_apart(rng)
    looks, replaces, waits = (kind(apart, script) for kind in (Looks, Replaces, Waits))
    while script.sources < size and script.has_room():
        class_name = rng.choice(["A"] * 10 + ["B"] * 4 + ["C"] * 3 + [rng.choice(OTHER_CLASSES)] * 3)
        source = sources.next(class_name)
        method = script.install(class_name, source, rng.random() < 0.3, replaces.over())
        if method is None:
            continue
        sources.keep(source)
        if apart.random() < 0.2:
            looks.ask(class_name, method.selector)
        if apart.random() < 0.1:
            replaces.in_vain()
        if apart.random() < 0.1:
            waits.ask()
        if apart.random() < 0.05:
            script.save()
        if class_name in ("A", "B", "C", "Object") or rng.random() < 0.2:
            for _ in range(rng.choice([1, 1, 2])):
                number = {"B": rng.choice([1, 2]), "C": 2}.get(class_name, rng.choice([0, 1, 2]))
                script.run_turn(number, method.selector, random_arguments(rng, method.arguments))
        if rng.random() < 0.1:
            script.remove(rng, class_name)
            looks.ask(class_name, script.commands[-1]["selector"])
        if rng.random() < 0.1:
            script.reparent(rng)
            looks.ask(script.commands[-1]["class"])
    looks.ask_all_edits()
    waits.ask_status()
    script.ask_faults(0)
    return script


class CutTurns:
    """A script in which turns of several actors are cut by quanta, with edits between them. What is drawn apart changes nothing of the
    rest: it is what `aside` names, which may be further definitions, questions for sends, looks at classes and actors, checkpoints,
    saves, installs that are to replace a version, and waits for turns.
    `further` are the lines of this, and those of a run that is asked for quantum by quantum."""

    SELECTORS = "foo bar m m1 who + = foo: class".split()

    def __init__(self, rng, sources, aside=("define",)):
        self.rng = rng
        self.sources = sources
        self.aside = aside
        quantum = rng.choice([1, 2, 3, 5, 8, 16, 33, 256])
        self.script = Script(quantum, rng.choice([64, 64, 1, 2, 5]))
        self.runs = [1, 1, 2, 3, 5, 10, 30] if quantum < 100 else [1, 2, 5]
        self.selectors = list(self.SELECTORS)
        self.apart = drawn_apart(rng)
        self.looks, self.replaces, self.waits = (kind(self.apart, self.script) for kind in (Looks, Replaces, Waits))
        self.defined = list("ABCDE") + ["Object"]
        self.further = 0

    def grow(self, size):
        while len(self.script.lines) - self.further < size and self.script.has_room():
            self.command(self.rng.random())
            if self.apart.random() < 0.15:
                self.further += 1
                getattr(self, self.apart.choice(self.aside))()
        return self.script

    def define(self):
        """A class that nobody names."""
        name = f"K{len(self.defined)}"
        self.script.add({"cmd": "define", "name": name, "slots": [], "super": self.apart.choice(self.defined)})
        self.defined.append(name)

    def look(self):
        self.looks.ask()

    def replace(self):
        self.replaces.in_vain()

    def wait(self):
        self.waits.ask()

    def checkpoint(self):
        """Few: counts of sends begin at 0 behind it."""
        if self.apart.random() < 0.25:
            self.script.add({"cmd": "checkpoint"})

    def save(self):
        if self.apart.random() < 0.5:
            self.script.save()

    def ask_faults(self):
        """Often of those behind a step that is near the last one, or near the oldest that is kept."""
        image = self.script.image
        steps = [0, image.steps, image.steps + 1, self.apart.randrange(image.steps + 1), *(it.step for it in image.failures.kept)]
        self.script.ask_faults(max(0, self.apart.choice(steps) - self.apart.choice([0, 0, 1, 2])))

    def look_at_actors(self):
        """Often, where there are looks, behind what changes actors."""
        if "look" in self.aside and self.apart.random() < 0.25:
            self.further += 1
            self.looks.ask_inspect() if self.apart.random() < 0.5 else self.looks.ask_actors()

    def look_behind(self, edit, selector=None):
        """Often, where classes are looked at, a look at what was edited."""
        if "look" in self.aside and self.apart.random() < 0.3:
            self.further += 1
            self.looks.ask(edit["class"], selector)

    def ask_sends(self):
        """Mostly of a method that is there."""
        class_name = self.apart.choice(CLASSES_TO_EDIT)
        own = list(self.script.image.classes.all[self.script.image.classes.numbers[class_name]].methods)
        self.script.add({"class": class_name, "cmd": "stats", "selector": self.apart.choice(own * 4 + ["foo", "+", "a:b"])})

    def sends_of(self, class_name):
        """All methods of a class are asked for their sends."""
        one = self.script.image.classes.all[self.script.image.classes.numbers[class_name]]
        for selector in one.methods:
            self.script.add({"class": class_name, "cmd": "stats", "selector": selector})
        return len(one.methods)

    def asked_in_the_end(self):
        """The script, at whose end all methods are asked for their sends, all turns for how they ended that may be told, and the image for
        its edits and its status."""
        for one in self.script.image.classes.all:
            self.sends_of(one.name)
        for number, actor in enumerate(self.script.image.actors):
            for turn in range(max(1, len(actor.results) - 66), len(actor.results) + 2):
                self.script.add({"actor": number, "cmd": "outcome", "turn": turn})
        self.looks.ask_all_edits()
        self.waits.ask_status()
        self.script.ask_faults(0)
        for failure in list(self.script.image.failures.kept):
            self.script.add({"actor": failure.actor, "cmd": "fault", "turn": failure.turn})
        return self.script

    def run(self):
        """Few quanta are asked for one by one."""
        quanta = self.rng.choice(self.runs)
        times = quanta if quanta < 5 else 1
        for _ in range(times):
            self.script.add({"cmd": "run", "quanta": quanta // times})
            self.look_at_actors()
        self.further += times - 1

    def command(self, kind):
        if kind < 0.3:
            self.install()
        elif kind < 0.35:
            self.script.remove(self.rng, self.rng.choice(CLASSES_TO_EDIT))
            self.look_behind(self.script.commands[-1], self.script.commands[-1]["selector"])
        elif kind < 0.4:
            self.script.reparent(self.rng)
            self.look_behind(self.script.commands[-1])
        elif kind < 0.6:
            self.post()
            self.look_at_actors()
        elif kind < 0.8:
            self.run()
        elif kind < 0.985:
            self.ask()
        elif kind < 0.99:
            self.script.add({"actor": self.actor(), "cmd": "close"})
            self.look_at_actors()
        elif len(self.script.image.actors) < 8:
            self.script.add({"class": self.rng.choice(["A", "B", "C", "D", "E", "Object"]), "cmd": "actor"})

    def install(self):
        """Where sends are asked for, often before a method is replaced: its own are told no more then. Where installs are to replace a
        version, so is this."""
        class_name = self.rng.choice(CLASSES_TO_EDIT)
        if "ask_sends" in self.aside and self.apart.random() < 0.4:
            self.further += self.sends_of(class_name)
        over = self.replaces.over() if "replace" in self.aside else None
        method = self.script.install(class_name, self.sources.next_to_run(class_name), over=over)
        if method:
            self.selectors.append(method.selector)
            self.look_behind(self.script.commands[-1], method.selector)

    def post(self):
        """A few have an argument too many. Some clients reuse a number, or leave some out."""
        selector = self.rng.choice(self.selectors)
        count = arguments_of(selector) + (self.rng.random() < 0.03)
        sender = self.rng.choice([1, 1, 2, 3, 65535])
        seq = max(0, self.script.image.numbers.get(sender, 0) + self.rng.choice([1, 1, 1, 1, 1, 1, 1, 2, 9, 0, -1]))
        self.script.send(sender, seq, self.actor(), selector, random_arguments(self.rng, count))

    def actor(self):
        return some_actor(self.rng, self.script.image)

    def ask(self):
        asked = some_turn(self.rng, self.script.image)
        self.script.add({**asked, "cmd": "fault" if self.apart.random() < 0.3 else "outcome"})


def cut_turns(rng, sources):
    turns = CutTurns(rng, sources, aside=("define", "ask_sends", "ask_faults", "look", "checkpoint", "replace", "save", "wait"))
    turns.grow(900)
    return turns.asked_in_the_end()


def all_scripts(seed, sources):
    """The scripts picked by hand, the known sources, the short ones, and `sources` random ones. Three in ten scripts of these
    cut turns."""
    yield from picked_scripts()
    yield known_script()
    yield from short_scripts()
    rng = random.Random(seed)
    kinds = Sources(rng)
    left = sources
    while left > 0:
        script = random_script(rng, kinds, min(left, 600)) if rng.random() < 0.7 else cut_turns(rng, kinds)
        left -= script.sources
        yield script
