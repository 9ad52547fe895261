"""What is said of a served image in place of what advice.py says of a script, and what `:help` says besides."""

REFUSALS = {
    "Full": "the mailbox of {actor} is full; send it again when the actor has come further",
    "HistoryFull": "the history of the server is full, often of the quanta of an endless turn, and nothing more is accepted; "
    ":checkpoint empties it",
    "NoMemory": "memory ran out in the server, and this was not done; try again",
    "Old": "another client posts under this number as well; type it again, or start with another --sender",
    "Pending": "turn {turn} of {actor} has not ended; ask again later",
    "UnknownActor": "there is no {actor}; :actors lists those there are",
    "WriteFault": "the server could not write its image, and says why on its standard error; its file stays, and the image goes on",
    "actors": "there are 65,536 actors, and no more can be made; let the old ones do more",
    "classes": "there are 1,024 classes, and no more can be defined; do with those there are",
    "edits": "the classes were edited as often as they may, 2,048 times since the server's start or 4,096 times in all; the first is "
    "given back if the server is saved and started again, the second by bin/fewer-edits on its file",
    "names": "there are 8,192 selectors and symbols, and no more can be added; do with those there are",
}

# What a refusal means by itself.
IN_GENERAL = {
    "Full": "the actor's mailbox is full; send the message again when the actor has come further",
    "HistoryFull": REFUSALS["HistoryFull"],
    "NoMemory": REFUSALS["NoMemory"],
    "Old": REFUSALS["Old"],
    "Pending": "the turn has not ended, or its message was not posted yet; ask again later",
    "TooMany": "there would be too many classes, variables, edits, names or actors; do with those there are, or let the server begin a "
    "new image",
    "UnknownActor": "no actor has this number; :actors lists those there are",
    "WriteFault": REFUSALS["WriteFault"],
}

HELP = """\
This image is served to many, and the server's workers run the actors: a message that is typed waits until its turn has ended.
:post does not wait; its turn is told of with a later answer, and :turn asks for it. Ctrl-C stops the waiting, and the turn goes on.
A session asks the image for its classes and methods, whoever wrote them (:classes, :methods, :versions, :senders, :implementors), for
what anybody edited (:edits), how a turn of any actor ended (:turn 3 of actor 0), what the actors run (:actors), what one of them holds
and which messages wait for it (:inspect actor 0), and how often a method's sends were done (:stats).
:names has what this session named. Tab completes what the image has, whoever wrote it; :methods alone tells of all, and :sources
writes all.
It cannot see who else is connected, what others named, or what a turn answers that it does not ask for. Turns that failed since the last
prompt are told of before the next one, whoever posted their messages (:faults, :why actor 0), and Enter alone asks for them. Edits of
others take effect here at the next send, and are not told; but a method that somebody has changed since it was shown or written here
is not written over or removed: what is there now is shown, and what is typed again takes the place of that. So it is with a class that
somebody has put under another one. c := actor 0 names any actor by its number. Where somebody has a checkpoint, turns of before are not told of any more.
Where the connection breaks, the next entry at a terminal connects again, asks for the last message of this sender that the image
has, tells whether turns are numbered anew and which methods it does not have as they were written here, and goes on. A server that was started with --image FILE saves its image at :save, and when bin/stop ends it.
""".splitlines()

# Commands that one might look for, and why they are not there.
NOT_THERE = {
    "who": "no command tells who else is connected; :help lists what a session can see and what not",
    "browse": "there is no browser; :classes and :methods list what is there, and :senders and :implementors find methods",
}

FOR_SCRIPT = "is for a script; here the server's workers run the actors"
# What commands do where it is not what they do with a script.
COMMANDS = {
    "post": "sends a message, and does not wait until its turn has ended",
    "checkpoint": "empties the history of the server; turns are numbered anew for everybody",
    "step": FOR_SCRIPT,
    "run": FOR_SCRIPT,
    "names": "lists what this session named",
    "save": "has the server write the image to its own file now; nothing comes after it",
    "sources": "writes the classes and methods that the image has now to a file, for :load",
    "restart": "is for a script; here the image is the server's",
    "quit": "ends the workspace; the image goes on",
}
