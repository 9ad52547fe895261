"""The commands that begin with a colon, and what `:help` says of them."""

from dataclasses import dataclass

from . import actors, advice, browsing, edits, failures, files, inspecting, references, running, saving, standing, status
from .known import near
from .wrong import Wrong

HELP = """\
Counter : Object | count |         defines a class with its variables, or puts it under another class
Counter >> bump  count := count+1  writes a method, or replaces it
c := Counter actor                 makes an actor, and names it
c start. c bump                    sends messages, and shows the last answer
A line that begins with two spaces goes on with the one before; at a terminal, where that is a method. There the prompt is blank
while a bracket is open, after the name of a method alone, and where a line of a method ends with a period or an operator; an empty
line or Ctrl-D ends that, so a method that is typed has no empty line inside. What is pasted is taken as a file is, once Enter is
typed behind it. Counter >> bump alone, and an empty line, show a method and write nothing, and so does Counter >> at:put: as lists
have it. Tab completes names, and after Counter >> whole methods; the keys of the cursor bring back what was typed.
Ctrl-C breaks a long run off, and its turn stays where it was.
""".splitlines()


@dataclass
class Described:
    """A command as it is typed, what it does, and its function, which takes the session and the text after the name."""

    form: str
    help: str
    function: object


def do(session, command):
    if command.name in session.image.not_there:
        raise Wrong(session.image.not_there[command.name])
    if command.name not in COMMANDS:
        typed = f":{command.name}"
        raise Wrong(f"there is no command {typed}{near(typed, [f':{name}' for name in COMMANDS])}; :help lists them")
    known = COMMANDS[command.name]
    if command.rest and known.form == f":{command.name}":
        raise Wrong(f"nothing comes after this command; take out {command.rest}")
    known.function(session, command.rest)


def why(session, rest):
    if failures.asks(session, rest) and not advice.explain(rest):
        failures.why(session, rest)
    elif rest:
        explain(session, rest)
    elif session.why:
        session.tell(session.why())
    elif not failures.why_newest(session):
        raise Wrong("nothing was refused yet, and no turn ended with a fault")


def explain(session, name):
    sentence = advice.explain(name, session.image.in_general)
    if not sentence:
        raise Wrong(f"there is no refusal, no fault and no actor {name}{near(name, [*advice.names(), *session.known.names])}")
    session.say(f"{name}: {sentence}")


def help_on(session, rest):
    name = rest.removeprefix(":")
    if name in COMMANDS:
        session.tell(help_lines(session, [name]))
    elif advice.explain(rest):
        explain(session, rest)
    elif rest:
        raise Wrong(f"there is no help on {rest}; :help alone lists the commands")
    else:
        session.tell([*HELP, *session.image.help, *help_lines(session, COMMANDS)])


def help_lines(session, names):
    width = max(len(it.form) for it in COMMANDS.values())
    own = session.image.commands
    return [f"{COMMANDS[name].form.ljust(width)}  {own.get(name, COMMANDS[name].help)}" for name in names]


def quit_session(session, rest):
    session.is_over = True


COMMANDS = {
    known.form[1:].split()[0]: known
    for known in (
        Described(":post c work: 100", "sends a message, and leaves its turn to :step and :run", running.post),
        Described(":step 1", "takes quanta; one if no number is given", running.step),
        Described(":run", "takes quanta until nothing is left to do", running.run),
        Described(
            ":turn 3 of c", "shows how a turn ended; as  :turn of c  the last one that the actor began, also where it stands", standing.turn
        ),
        Described(":close c", "closes an actor's mailbox", running.close),
        Described(":checkpoint", "empties the history; turns are numbered anew, and statistics begin at 0", running.checkpoint),
        Described(":remove Counter bump", "removes a method, and tells which messages wait for it and which turns run it", browsing.remove),
        Described(":classes", "lists the classes that were defined", browsing.classes),
        Described(":methods Counter", "lists the methods of a class; alone, all methods; as  :methods Counter bump  one", browsing.methods),
        Described(
            ":versions Counter bump", "shows what a method was, and what differs; as  :versions Counter  the class's edits", browsing.versions
        ),
        Described(":revert Counter bump 3", "writes a method again as it was in a version", browsing.revert),
        Described(":implementors bump", "lists the classes that have a method of their own", browsing.implementors),
        Described(":senders bump", "lists the methods that send a message, have it inlined, or have its symbol, to post it", browsing.senders),
        Described(
            ":references Counter", "lists the methods that name a class; as  :references count of Counter  a variable", references.references
        ),
        Described(":edits 20", "lists the newest edits; what a removed method was, :versions Counter bump shows", edits.edits),
        Described(
            ":actors Counter failed",
            "lists the actors; also of a class, or those  running,  waiting,  failed  or  closed,  and from a number on",
            actors.actors,
        ),
        Described(
            ":inspect c",
            "shows an actor: variables, mailbox, turn; as  :inspect c 1  an object of its own, and  all  all",
            inspecting.inspect,
        ),
        Described(":faults 9", "lists the newest turns that failed; as  :faults c  those of an actor; alone, each kind once", failures.faults),
        Described(":names", "lists what was named", browsing.names),
        Described(":status", "shows in numbers what the image has, and how much is left of its history and its edits", status.status),
        Described(":stats Counter bump", "shows how the caches answered the sends of a method", browsing.stats),
        Described(":expect 5", "is refused where the messages before have another answer, so that a file can check", running.expect),
        Described(":load FILE", "does what a file has: definitions, messages, comments", files.load),
        Described(":save FILE", "writes the image to a file now; alone, to that of --image", saving.save),
        Described(":sources FILE", "writes all classes and methods to a file, for :load", files.sources),
        Described(":log FILE", "writes what was sent so far, and answered, as JSON; alone, shows it for the line before", files.log),
        Described(":why c 12", "shows how a turn failed; as  :why c  the actor's last, and alone the last that was told, or the newest", why),
        Described(":help :step", "helps with a command; alone, with all", help_on),
        Described(":restart", "starts anew, with nothing defined; with --image, as it was saved last", saving.restart),
        Described(":quit", "ends the workspace; with --image, the image is kept", quit_session),
    )
}
