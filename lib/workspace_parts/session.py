"""A session: each entry is done, and what it gives is said."""

from . import commands, failures, looks, removing, shown, unseen
from .entries import Command, Definition, Method, form
from .known import Known
from .learning import learn
from .log import Log
from .news import News, Told
from .refused import lines as refused_lines
from .sending import Sending
from .sources import marked
from .statements import read_statements
from .tokens import bare_selector, has_body, pattern, posted
from .values import show
from .wrong import Died, Faulted, Lost, Refused, Stopped, Wrong

# The kind of an entry that has nothing but comments.
NOTHING = type(None).__name__
OFFER = "a tenth of the history is left;  :checkpoint  empties it, and all goes on"
FULL = "nothing of the history is left;  :checkpoint  empties it, and all goes on"


class Session:
    """`say` takes each line that is told. `loading` are the files that are being loaded, `why` gives what `:why` says, if there is
    anything, and the last entry goes from `told` to `ended` in the log. `answer` is what the last entry showed, or the fault that ended it,
    if it sent messages; `faulted` is the file in which that fault came, until `:expect` has looked at it, and `is_as_expected` is what
    `:expect` found so far. `is_lost` says that the connection broke in the last entry, and `is_explained` that `:why` is about it."""

    command_names = tuple(commands.COMMANDS)

    def __init__(self, image, breaks, say):
        self.image, self.breaks = image, breaks
        self.say = say
        self.is_over = False
        self.loading = []
        self.answer, self.faulted, self.is_as_expected = None, None, True
        self.start()

    def start(self):
        """An image of which nothing is known but what stands in its file."""
        self.log = Log(self.image.connect(self))
        self.told = self.ended = 0
        self.is_offered = self.is_lost = self.is_explained = False
        self.why = None
        self.known = Known()
        self.turns = self.image.turns(self.log, self.breaks)
        if self.image.loaded:
            learn(self.image.loaded, self.known, self.turns)
        self.news = News(self)
        self.news.begin()

    def save(self):
        """The bytes of the image's file, once the image is there."""
        with self.image.saving():
            return self.turns.ask({"cmd": "save"})["bytes"]

    def restart(self):
        """Begins anew with what was saved last, if it was to be kept."""
        self.log.connection.kill()
        self.image.forget()
        self.start()

    def begin_again(self):
        """The lines on that with which it goes on behind a new connection, where the image may be another one."""
        self.known.begin_again()
        said = self.turns.begin_again()
        self.news.begin()
        return [*said, *unseen.lost(self)]

    def close(self):
        """Ends the session, and says whether what was to be kept is kept: in its file, or beside it."""
        if self.image.is_served or not self.image.kept:
            self.end()
            return True
        self.image.about_to_save()
        return self.log.connection.close() == 0 or self.image.is_kept_beside()

    def end(self):
        self.image.about_to_save()
        self.log.connection.end()

    def do(self, text):
        """Does one entry, and tells what happened meanwhile. Returns the name of its kind, or `refused` where it was not done whole."""
        is_log, begun = text.lstrip().startswith(":log"), len(self.log.lines)
        kind = self.done(text)
        if not is_log:
            self.told, self.ended = begun, len(self.log.lines)
        is_comment = kind == NOTHING and text.strip()
        if not (is_comment or self.loading or self.is_over or self.is_lost):
            self.tell_news()
        return kind

    def tell_news(self):
        """Tells of the faults that nobody has told of here."""
        try:
            self.news.tell()
        except Lost as lost:
            self.say(lost.sentence)

    def done(self, text):
        """Does one entry, and returns the name of its kind."""
        self.log.connection.begin()
        self.is_lost = False
        if not self.loading:
            self.is_explained = False
        try:
            found = form(text)
            self.do_form(text, found)
            self.offer()
            return type(found).__name__
        except Stopped as stopped:
            self.tell_where()
            self.tell_stop(text, stopped)
            self.tell_ends()
            self.offer()
        except RecursionError:
            self.tell_where()
            self.say("this is nested too deep; send a part of it first, and name the answer")
        return "refused"

    def offer(self):
        """Offers a checkpoint, once, where a tenth of the history is left, or nothing."""
        was, self.is_offered = self.is_offered, self.turns.is_nearly_full()
        if self.is_offered and not was:
            self.say(FULL if self.turns.is_full() else OFFER)

    def tell_where(self):
        """While a file is loaded, its name and line come before what is wrong."""
        if self.loading:
            self.say(str(self.loading[-1]))

    def tell(self, lines):
        for line in lines:
            self.say(line)

    def do_form(self, text, found):
        if isinstance(found, Definition):
            self.define(found)
        elif isinstance(found, Method):
            self.install(found)
        elif isinstance(found, Command):
            self.command(found)
        elif found:
            self.answer = self.faulted = None
            Sending(self).do(read_statements(text))

    def command(self, found):
        try:
            commands.do(self, found)
        except Wrong as wrong:
            wrong.place = None if wrong.place is None else wrong.place + found.start
            raise

    # Definitions.

    def define(self, found):
        if self.loading and self.is_as_before(found) and not self.image.is_served:
            return
        if self.is_moved(found):
            self.move(found)
            return
        command = {"cmd": "define", "name": found.name, "super": found.parent, "slots": found.slots}
        try:
            version = self.turns.ask(command)["version"]
        except Refused as refused:
            if refused.reply["error"] != "ClassExists":
                raise
            if not self.loading and self.is_moved_of_others(found):
                self.move(found)
                return
            if not self.loading:
                raise
            if self.is_as_before(found):
                return
            if found.name in self.known.classes:
                raise
            self.loading[-1].there += 1
            self.tell_there(found)
            return
        except Died:
            self.known.define(found.name, found.parent, found.slots)
            raise
        self.known.define(found.name, found.parent, found.slots)
        self.known.above[found.name] = found.parent
        if not self.loading:
            self.say(f"class {found.name}, version {version}")

    def tell_there(self, found):
        """Tells how a class stands that the image has otherwise than the file that is being loaded."""
        there = looks.class_there(self, found.name)
        self.known.above[found.name] = there.parent
        if (there.parent, there.slots) != (found.parent, found.slots):
            self.tell_where()
            self.say(f"{there.written()}  is there already, and stays as it is")

    def is_moved(self, found):
        """Whether a definition is that of a class which was defined before, but for the class above it."""
        old = self.known.classes.get(found.name)
        return old and old.parent and old.parent != found.parent and old.slots == found.slots

    def is_moved_of_others(self, found):
        """The same, where another session may have defined the class: the image is asked."""
        if not self.image.is_served:
            return False
        looks.classes(self)
        return self.is_moved(found)

    def move(self, found):
        command = {"cmd": "reparent", "class": found.name, "super": found.parent}
        if self.image.is_served:
            unseen.check_class(self, command)
        version = self.turns.ask(command)["version"]
        self.known.move(found.name, found.parent)
        self.known.above[found.name] = found.parent
        if not self.loading:
            self.say(f"class {found.name} under {found.parent}, version {version}")

    def is_as_before(self, found):
        """Whether a definition is that of a class which was defined before."""
        old = self.known.classes.get(found.name)
        return old and (old.parent, old.slots) == (found.parent, found.slots)

    def install(self, found):
        """A method that stands already is not loaded anew, but of a served image nobody knows what stands."""
        if not self.loading and (named := bare_selector(found.source)):
            self.tell(shown.by_selector(self, found.holder, named))
            return
        selector = (pattern(found.source) or ("", 0))[0]
        holder = self.known.classes.get(found.holder)
        stands = holder and holder.methods.get(selector) == found.source and not self.image.is_served
        if self.loading and stands:
            return
        if not has_body(found.source):
            self.show(found, selector)
            return
        self.write(found.holder, selector, found.source)

    def write(self, name, selector, source):
        """Writes a method, and answers its version. Where one was shown or written before, it takes the place of that one alone. What was
        typed when the program died is known too, so that it is kept."""
        command = unseen.replacing(self, {"cmd": "method", "class": name, "source": source}, selector)
        try:
            version = self.turns.ask(command)["version"]
        except Refused as refused:
            if refused.reply["error"] == "Stale":
                refused.more = shown.now(self, name, selector)
            raise
        except Died:
            self.known.install(name, selector, source)
            raise
        self.known.install(name, selector, source)
        self.known.note_written(name, selector, version, source)
        if self.loading:
            self.loading[0].written.append((name, selector))
        else:
            self.tell_unknown([(name, selector)])
        return version

    def tell_unknown(self, methods, of_file=False):
        """Tells which of the messages that methods send or post no class has a method for, and of those of a file also where."""
        sent = {}
        for method in methods:
            for it in [*looks.sent(self, *method), *posted(self.known.source(*method))]:
                sent.setdefault(it, f"; {method[0]} >> {method[1]} sends it" if of_file else "")
        self.tell([f"no class has a method {it}{place}" for it, place in sent.items() if not looks.implementors(self, it)])

    def show(self, found, selector):
        """Shows a method whose pattern alone was typed; a file that has no more of one is wrong there."""
        head = found.source[: pattern(found.source)[1]]
        if self.loading:
            shown.refuse(found, head)
        self.tell(shown.shown(self, found, selector, head))

    def remove(self, class_name, selector):
        """Removes a method, and tells if methods send it that no class has any more, and what is left that asks for it or runs it."""
        command = {"cmd": "remove", "class": class_name, "selector": selector}
        if self.image.is_served and (class_name, selector) in self.known.shown:
            unseen.check(self, command, selector)
        self.turns.ask(command)
        self.known.note_removed(class_name, selector)
        if class_name in self.known.classes:
            self.known.classes[class_name].methods.pop(selector, None)
        if looks.senders(self, selector) and not looks.implementors(self, selector):
            self.say(f"no class has a method {selector} any more; :senders {selector}  lists those that send it")
        self.tell(removing.left(self, class_name, selector))

    def make_actor(self, class_name):
        number = self.turns.ask({"cmd": "actor", "class": class_name})["actor"]
        self.known.actor(number).class_name = class_name
        return number

    # What is said.

    def tell_stop(self, text, stopped):
        self.is_lost = isinstance(stopped, Lost)
        if isinstance(stopped, Wrong):
            self.tell([stopped.sentence] if stopped.place is None else marked(text, stopped.place, stopped.sentence))
        elif isinstance(stopped, Refused):
            self.tell_refusal(stopped)
        elif isinstance(stopped, Faulted):
            self.answer = f"fault {stopped.fault}"
            self.faulted = self.loading[-1] if self.loading else None
            self.tell_fault(stopped.turn, stopped.fault)
        else:
            self.say(stopped.sentence)
        if stopped.unsent:
            self.say(f"not sent: {stopped.unsent}")

    def tell_ends(self):
        for turn, end in self.turns.take_ends():
            self.tell_end(turn, end)

    def tell_end(self, turn, end):
        if "fault" in end:
            self.tell_fault(turn, end["fault"])
        elif "answer" in end:
            self.known.see(end["answer"])
            self.say(f"{turn} answers {show(end['answer'], self.known, turn.actor)}")
        else:
            self.say(f"{turn} has ended, and its answer is no longer kept")

    def tell_fault(self, turn, fault):
        told = Told(turn, fault)
        self.news.told.append(told)
        self.explain(lambda: failures.lines(self, told))
        self.say(f"fault {fault} in {turn}")

    def tell_fault_of_others(self, told):
        """A fault of a turn for which nobody has waited here. A turn that was posted is not told of again."""
        self.turns.forget(told.turn)
        if not self.is_explained:
            self.why = lambda: failures.lines(self, told)
        self.say(f"actor {told.turn.actor}: fault {told.fault} in turn {told.turn.number}")

    def explain(self, why):
        """What `:why` says from now on. It goes before what happened besides."""
        self.why, self.is_explained = why, True

    def tell_refusal(self, refused):
        try:
            lines = refused_lines(self, refused.command, refused.reply) + refused.more
        except Lost as lost:
            self.is_lost, lines = True, [lost.sentence]
        self.explain(lambda: lines)
        self.tell(lines)
        # What is said of a full history offers a checkpoint itself.
        self.is_offered |= refused.reply["error"] == "HistoryFull"
