"""The commands that write the image to its file, and go back to what was written."""

import os

from . import image_file
from .learning import contents
from .values import count
from .wrong import Died, Refused, Wrong

OF_SERVER = "the server saves this image in its own file, at  :save  alone;  :sources FILE  writes the classes and methods"
# Where the server's file is not known.
ITS_FILE = "the server's file"
NOT_KEPT = "end the workspace again once {} can be written, or now to lose what it has not"
LOST = "{} could not be written, for the reason above, and has what was saved last"
CHANGED = "what was done since the image was saved last is lost, and {} has what another program wrote"


def begin(session):
    """Says with what the workspace begins, if it is to be kept."""
    kept, loaded = session.image.kept, session.image.loaded
    if kept:
        session.say(f"{kept}: {contents(loaded)}" if loaded else f"{kept} is new, and is written when the workspace ends")


def end(session):
    """Ends the session. The program saves its image then, beside the file if that was changed."""
    if not session.close():
        raise Died((CHANGED if session.image.is_changed() else LOST).format(session.image.kept))


def ends(session):
    """Whether the session ended, with what was to be kept. Else it goes on, and nothing is lost."""
    image = session.image
    if image.kept and not image.is_changed():
        try:
            session.save()
        except Refused as refused:
            session.is_over = False
            session.tell_refusal(refused)
            session.say(NOT_KEPT.format(image.kept))
            return False
    end(session)
    return True


def save(session, rest):
    image = session.image
    if image.is_served:
        if rest:
            raise Wrong(OF_SERVER)
        size, name = session.save(), session.log.connection.file or ITS_FILE
    else:
        name = os.path.expanduser(rest) or image.kept
        size = save_own(session, name)
    session.say(f"{name}: {count(size, 'byte')}")


def save_own(session, name):
    """Saves the image of the workspace's own program, and copies the file where another name was given. Answers its bytes."""
    if not name:
        raise Wrong("write the name of a file after it, as in  :save counter.image")
    path = session.image.path
    is_copy = os.path.realpath(name) != path
    if is_copy:
        check_target(name)
    size = session.save()
    if is_copy:
        image_file.copy(path, name)
    return size


def check_target(name):
    """Another image is written over, and what is none stays."""
    image_file.check_room(name)
    try:
        image_file.read(name)
    except Wrong:
        raise Wrong(f"{name} is there and is no image, so it stays; take another name") from None


def restart(session, rest):
    if session.image.is_served:
        raise Wrong("the image is the server's, and others use it; who started the server can end it and start it anew")
    session.restart()
    if session.image.loaded:
        session.say(f"{session.image.kept} as it was saved last: {contents(session.image.loaded)}")
    else:
        session.say("a new image, without classes and actors")
