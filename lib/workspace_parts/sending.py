"""Typed statements are done here: names are looked up, and messages are sent one after the other."""

from . import looks
from .known import near
from .statements import Actor, Literal, Name, Send
from .values import show
from .wrong import BrokenOff, Faulted, Stopped, Wrong

# What is typed elsewhere to leave.
LEAVE = {"exit": "quit", "bye": "quit"}
TRY = "to try it, put it into a method"
MAKES_ACTOR = ("actor", "newActor")


class Sending:
    def __init__(self, session):
        self.session = session
        self.known, self.turns = session.known, session.turns

    def do(self, statements):
        """Sends all messages, and shows the answer of the last."""
        self.check_names(statements)
        for at, statement in enumerate(statements):
            try:
                if self.session.breaks.asked:
                    raise BrokenOff(f"broken off before {statement.text}")
                value, actor = self.value_of(statement.expression)
                if isinstance(statement.expression, Name) and statement.expression.text[0].isupper():
                    self.ask_for_class(statement.expression.text)
                self.give_names(statement, value, actor, is_last=at == len(statements) - 1)
            except Stopped as stopped:
                later = [it.text for it in statements[at + 1 :]]
                stopped.unsent = ". ".join([stopped.unsent, *later] if stopped.unsent else later)
                raise

    def check_names(self, statements):
        """Looks for names that mean nothing before anything is sent."""
        given = set()
        for statement in statements:
            for name in names_in(statement.expression):
                if not name.text[0].isupper() and name.text not in given:
                    self.check_name(name.text, name.place)
            given.update(statement.names)

    def check_name(self, name, place=None):
        if name not in self.known.names:
            command = LEAVE.get(name, name)
            if command in self.session.command_names:
                raise Wrong(f"nothing is named {name}; did you mean :{command}?", place)
            hint = near(name, self.known.names) or self.hint(name)
            raise Wrong(f"nothing is named {name}{hint}", place)

    def hint(self, name):
        """How a name comes about: an image that was loaded has actors, and no names of theirs."""
        if self.session.image.loaded and self.known.actors:
            return f"; :actors lists the actors, and  {name} := actor 0  names one"
        return f"; make an actor of a class, as in  {name} := Counter actor"

    def give_names(self, statement, value, actor, is_last):
        """Names the value, after it was shown: an actor that has no name yet is shown by its number."""
        if statement.names and isinstance(value, dict) and "local" in value:
            shown = show(value, self.known, actor)
            raise Wrong(f"{shown} stays in its actor; only numbers, symbols, classes and actors can be named")
        is_named = actor is None and isinstance(value, dict) and "ref" in value
        if is_last:
            self.session.answer = f"actor {value['ref']}" if is_named else show(value, self.known, actor)
            self.session.say(self.session.answer)
        for name in statement.names:
            self.known.names[name] = value

    def value_of(self, expression):
        """The value, and the number of the actor that answered it, if one did."""
        if isinstance(expression, Literal):
            return expression.value, None
        if isinstance(expression, Name):
            return self.named(expression), None
        if isinstance(expression, Actor):
            return self.numbered(expression), None
        receiver, _ = self.value_of(expression.receiver)
        for at, message in enumerate(expression.messages):
            try:
                arguments = [self.value_of(argument)[0] for argument in message.arguments]
                found = self.send(receiver, message.selector, arguments, expression.place)
            except Stopped as stopped:
                stopped.unsent = "; ".join(later.text for later in expression.messages[at + 1 :]) or stopped.unsent
                raise
        return found

    def named(self, name):
        return {"class": name.text} if name.text[0].isupper() else self.known.names[name.text]

    def numbered(self, actor):
        """The reference to an actor by its number, if there is one: the program is asked where it was not seen yet."""
        if actor.number not in self.known.actors:
            looks.actor(self.session, actor.number)
        value = {"ref": actor.number}
        self.known.see(value)
        return value

    def ask_for_class(self, name):
        """Refused if there is no such class: the program is asked for one that another session may have defined."""
        if name not in self.known.classes:
            looks.methods(self.session, name)

    def send(self, receiver, selector, arguments, place):
        if isinstance(receiver, dict) and "class" in receiver:
            return self.send_class(receiver["class"], selector, arguments, place), None
        actor = self.receiver(receiver, place)
        if any(isinstance(argument, dict) and "local" in argument for argument in arguments):
            raise Wrong("an object of an actor's own cannot be sent to another one; send a number, a symbol or an actor", place)
        return self.answer(self.post(actor, selector, arguments)), actor

    def post(self, actor, selector, arguments):
        """The turn of a message, which is posted."""
        self.known.actor(actor).is_own = True
        return self.turns.post(actor, selector, arguments)

    def receiver(self, value, place=None):
        """The number of the actor that a value is, whose class is asked for if it is not known."""
        if not isinstance(value, dict) or "ref" not in value:
            raise Wrong(f"{show(value, self.known)} is not an actor, and messages are sent to actors here; {TRY}", place)
        if not self.known.actor(value["ref"]).class_name:
            looks.actors(self.session, value["ref"], 1)
        return value["ref"]

    def answer(self, turn):
        """Runs until the turn has ended. What waited before and ended is told first."""
        end = self.turns.end_of(turn)
        self.session.tell_ends()
        if not end:
            raise BrokenOff(f"{turn} has ended, and its answer is no longer kept")
        if "fault" in end:
            raise Faulted(turn, end["fault"])
        self.known.see(end.get("answer"))
        return end.get("answer")

    def send_class(self, name, selector, arguments, place):
        if selector in MAKES_ACTOR:
            return {"ref": self.session.make_actor(name)}
        if name not in self.known.classes and not self.session.image.is_served:
            raise Wrong(f"nothing is named {name}{near(name, self.known.classes) or near(name, self.known.names)}", place)
        if selector == "removeSelector:" and isinstance(arguments[0], dict) and "sym" in arguments[0]:
            self.session.remove(name, arguments[0]["sym"])
            return {"class": name}
        self.ask_for_class(name)
        raise Wrong(asked_of_class(name, selector, arguments), place)


def asked_of_class(name, selector, arguments):
    """What is said of a message to a class that is not done here."""
    if selector in ("selectors", "methods", "methodDict", "browse"):
        return f":methods {name}  lists its methods"
    if selector in ("sourceCodeAt:", "compiledMethodAt:", ">>") and isinstance(arguments[0], dict) and "sym" in arguments[0]:
        return f":methods {name} {arguments[0]['sym']}  shows the method"
    if selector in ("includesSelector:", "canUnderstand:", "lookupSelector:") and isinstance(arguments[0], dict) and "sym" in arguments[0]:
        return f":methods {name} {arguments[0]['sym']}  shows what a message to an object of the class runs"
    if selector in ("allInstances", "instanceCount"):
        return f":actors {name}  lists the actors of the class"
    if selector in ("superclass", "subclasses", "instVarNames"):
        return ":classes  lists the classes, with those above them and their variables"
    if selector == "superclass:" and isinstance(arguments[0], dict) and "class" in arguments[0]:
        return f"it is put under another class as  {name} : {arguments[0]['class']}  with its variables behind it"
    return f"a class only makes actors here, as in  c := {name} actor; other messages to a class go into a method"


def names_in(expression):
    if isinstance(expression, Name):
        yield expression
    elif isinstance(expression, Send):
        yield from names_in(expression.receiver)
        for message in expression.messages:
            for argument in message.arguments:
                yield from names_in(argument)
