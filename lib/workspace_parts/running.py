"""The commands that take quanta by hand, and those on mailboxes and answers."""

import re

from .sending import Sending
from .statements import Actor, Literal, Name, Send, read_statements
from .values import count
from .wrong import Wrong


def post(session, rest):
    statements = read_statements(rest)
    if not statements:
        raise Wrong("write a message after it, as in  :post c bump")
    sending = Sending(session)
    sending.check_names(statements)
    for statement in statements:
        if statement.names or not isinstance(statement.expression, Send):
            raise Wrong(f"{statement.text} is not a message to an actor, or its answer would be needed at once")
        post_one(session, sending, statement.expression)


def post_one(session, sending, send):
    given = [send.receiver, *(it for message in send.messages for it in message.arguments)]
    if not all(isinstance(it, (Actor, Literal, Name)) for it in given):
        raise Wrong("a message that waits takes only values and names", send.place)
    actor = sending.receiver(sending.value_of(send.receiver)[0], send.place)
    for message in send.messages:
        arguments = [sending.value_of(argument)[0] for argument in message.arguments]
        turn = sending.post(actor, message.selector, arguments)
        session.say(f"{turn} is posted" if session.image.is_served else f"{turn} waits")


def step(session, rest):
    if not re.fullmatch("|[1-9][0-9]{0,6}", rest):
        raise Wrong("write the number of quanta after it, as in  :step 3")
    take(session, int(rest or 1))


def run(session, rest):
    take(session, None)


def take(session, quanta):
    taken, steps = session.turns.go_on(quanta)
    session.say(f"{count(taken, 'quantum')}, {count(steps, 'step')}" if taken else "nothing is ready to run")
    session.tell_ends()


def close(session, rest):
    session.turns.ask({"cmd": "close", "actor": actor_of(session, rest)})


def checkpoint(session, rest):
    """The turns that have ended are told of before: how they ended is forgotten."""
    for actor in {turn.actor for turn in session.turns.waiting}:
        session.turns.see_ends(actor)
    session.tell_ends()
    counted = session.turns.checkpoint()
    posts, steps = count(counted["posts"], "post"), count(counted["steps"], "step")
    session.say(f"the history is empty, and turns are numbered anew; {posts} and {steps} so far")


def expect(session, rest):
    """Wrong if the messages before have another answer, or none. A fault of a file that is met is not counted as refused."""
    if not rest:
        raise Wrong("write the answer after it that the message before is to have, as in  :expect 5  or  :expect fault zeroDivide")
    faulted, session.faulted = session.faulted, None
    if session.answer == " ".join(rest.split()):
        if faulted:
            faulted.expected += 1
        return
    session.is_as_expected = False
    wrong = f"{rest} is expected, and the answer is {session.answer or 'none'}"
    before = session.why if (session.answer or "").startswith("fault ") else list
    session.explain(lambda: [wrong, *before()])
    raise Wrong(wrong)


def actor_of(session, text):
    """The number of an actor that is written as its name or as `actor 3`."""
    match = re.fullmatch(r"actor\s+([0-9]{1,9})", text)
    if match:
        return int(match[1])
    if not re.fullmatch("[a-z][A-Za-z0-9]*", text):
        raise Wrong("write the name of an actor, or its number as in  actor 3")
    sending = Sending(session)
    sending.check_name(text)
    return sending.receiver(session.known.names[text])
