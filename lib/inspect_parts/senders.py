"""The numbers of senders hold together with those of the messages that are pending. Place `senders`."""

from .refused import BadImage


def refuse(path, what):
    raise BadImage("senders", path, what)


def key_of(sender):
    """A sender as a key: what it is, and its number."""
    return ("actor", sender["ref"]) if type(sender) is dict else ("client", sender)


def check_senders(senders, actors):
    check_rising([client for client, last in senders])
    lasts = {("client", client): last for client, last in senders}
    lasts.update({("actor", number): actor["last"] for number, actor in enumerate(actors)})
    used = {}
    for number, actor in enumerate(actors):
        newest = {}
        for place, message in enumerate(actor["pending"]):
            sender = key_of(message["sender"])
            path = f"actors[{number}].pending[{place}].seq"
            check_number(message["seq"], lasts.get(sender, 0), " ".join(map(str, sender)), path)
            if message["seq"] <= newest.get(sender, 0):
                refuse(path, f"{message['seq']} is not above the number before it of the same sender")
            newest[sender] = message["seq"]
            box = used.setdefault((sender, message["seq"]), number)
            if box != number:
                refuse(path, f"actor {box} has a message with the same number of the same sender")


def check_rising(clients):
    for place in range(1, len(clients)):
        if clients[place] <= clients[place - 1]:
            refuse(f"senders[{place}][0]", f"client {clients[place]} comes after client {clients[place - 1]}")


def check_number(seq, last, sender, path):
    if seq == 0:
        refuse(path, "0 is the number of no message")
    if seq > last:
        refuse(path, f"{seq} is above the last number of {sender}, which is {last}")
