"""What Tab completes of a served image: also what this session has not seen, whoever wrote it. The image is asked at each Tab."""

from . import looks, symbols
from .known import Known
from .wrong import Ended, Refused, Stopped


class Completer:
    """What `readline` asks for the words that one text may become: for the first, then for the second, and so on."""

    def __init__(self, session, candidates):
        self.session, self.candidates, self.found = session, candidates, []

    def nth(self, before, text, place):
        if place == 0:
            self.found = self.candidates(known(self.session), before, text)
        return self.found[place] if place < len(self.found) else None


def known(session):
    """What is known to be completed. Where the image does not tell, what this session knows."""
    if not session.image.is_served:
        return session.known
    try:
        with session.breaks:
            return of_image(session)
    except (Stopped, Ended):
        return session.known


def of_image(session):
    """The classes and methods that the image has now, and the names and actors of this session."""

    def ask(command):
        reply = session.log.connection.look(command)
        if "error" in reply:
            raise Refused(command, reply)
        return reply["ok"]

    found = Known()
    found.note_classes(ask({"cmd": "classes"})["classes"])
    for (name, selector), source in symbols.installed(looks.all_edits(ask)).items():
        found.install(name, selector, source)
    found.names, found.actors = session.known.names, session.known.actors
    return found
