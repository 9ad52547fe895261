"""As many clients as there may be, each with a last number of its own."""

from scripts_parts.commands import IS_NIL, actor, error, made, post

from . import most
from .program import same
from .session import Session


def last_of(client):
    return 3 * client + 1


def post_of(client, number):
    return post(number, IS_NIL, client)


def begins(session):
    """A turn of each client, of one step: isNil of an actor. One client more is no client."""
    session.ask(actor(), made(0))
    for first in range(0, most.CLIENTS, most.MESSAGES):
        clients = range(first, min(first + most.MESSAGES, most.CLIENTS))
        for client in clients:
            session.ask(post_of(client, last_of(client)), {"ok": {"turn": client + 1}})
            session.posts += 1
        session.run(len(clients), len(clients), most=most.MESSAGES)
    session.ask(post_of(most.CLIENTS, 1), error("BadCommand"))
    are_known(session)


def are_known(session):
    """The last number of each is used."""
    for client in range(most.CLIENTS):
        session.ask(post_of(client, last_of(client)), error("Old", last=last_of(client)))


def goes_on(before):
    """The same behind a load, and behind a checkpoint. Then the last client posts once more."""
    session = Session("senders, loaded", before)
    are_known(session)
    session.checkpoint()
    are_known(session)
    last = most.CLIENTS - 1
    session.ask(post_of(last, last_of(last) + 1), {"ok": {"turn": 1}})
    session.posts += 1
    session.run(1, 1)
    session.checkpoint()
    session.ask(post_of(last, last_of(last)), error("Old", last=last_of(last) + 1))
    session.ask(post_of(most.CLIENTS, 1), error("BadCommand"))
    return session


def senders(program):
    session = Session("senders", capacity=most.MESSAGES)
    begins(session)
    program.keep(session)
    wanted = [[client, last_of(client)] for client in range(most.CLIENTS)]
    same("the senders of the file", program.image()["senders"], wanted)
    program.keep(goes_on(session))
    return f"clients 0 to {most.CLIENTS - 1:,}"


TRIALS = (senders,)
