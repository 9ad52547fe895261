"""What an image file says of an image, and of its first actor."""


def names(image):
    """Those of the user's. The first is name 22."""
    return image["names"]


def edits(image):
    return len(image["edits"])


def actors(image):
    return len(image["actors"])


def clients(image):
    """Those that have sent a message, each with its last number."""
    return [tuple(it) for it in image["senders"]]


def class_name(image):
    return image["actors"][0]["class"]


def capacity(image):
    return image["actors"][0]["capacity"]


def is_open(image):
    return image["actors"][0]["open"]


def last_sent(image):
    return image["actors"][0]["last"]


def is_idle(image):
    """Whether the actor is in no turn."""
    phase = image["actors"][0]["body"]["phase"]
    return phase == "fresh" or "answer" in phase or "fault" in phase


def pending(image):
    return len(image["actors"][0]["pending"])


def senders(image):
    """Who sent each pending message, and the sender's number for it. An actor is a reference."""
    return [(it["sender"], it["seq"]) for it in image["actors"][0]["pending"]]


def messages(image):
    """The pending messages: who sent each, the sender's number for it, its selector and arguments."""
    return [(it["sender"], it["seq"], it["selector"], it["args"]) for it in image["actors"][0]["pending"]]
