"""Trials on a pretended server, which replies what a real one does only at a bad moment."""

import contextlib
import json
import os
import socket
import tempfile
import threading

from workspace_parts.breaks import Breaks
from workspace_parts.images import ServedImage, WatchedImage
from workspace_parts.reconnecting import Reconnecting
from workspace_parts.served_turns import AGAIN, ANEW
from workspace_parts.session import FULL, OFFER, Session
from workspace_parts.socket_connection import SocketConnection
from workspace_parts.wrong import Ended, Lost

from .serving import Server
from .try_common import same

GREETED = '{"error":"BadCommand"}'
STATUS = '{"ok":{"epoch":"7","history":899999,"history_most":1000000}}'
NEWS = '{"ok":{"faults":[],"from":12,"steps":12}}'
POST = {"cmd": "post", "actor": 0, "selector": "bump", "args": [], "sender": 7, "seq": 3}
OUTCOME = {"cmd": "outcome", "actor": 0, "turn": 1}
BROKE = "the connection to {} broke, perhaps since the server has ended"


@contextlib.contextmanager
def pretended(*sessions):
    """The path of a server. Each session gets some lines, one for each line that it sends, and is then let go."""
    with tempfile.TemporaryDirectory() as folder, socket.socket(socket.AF_UNIX) as listener:
        path = os.path.join(folder, "socket")
        listener.bind(path)
        listener.listen()
        thread = threading.Thread(target=serve, args=(listener, sessions), daemon=True)
        thread.start()
        yield path
        thread.join(20)
        same(thread.is_alive(), False)


def serve(listener, sessions):
    for replies in sessions:
        stream, _ = listener.accept()
        with stream, stream.makefile("rb") as lines:
            for reply in replies:
                lines.readline()
                stream.sendall(reply.encode() + b"\n")
            # The next command is read, and gets no reply.
            lines.readline()


def sentence(kind, function, *arguments):
    """What a call says that cannot be done."""
    try:
        function(*arguments)
    except kind as wrong:
        return wrong.sentence
    raise AssertionError("nothing is wrong")


def no_server_replies(program):
    """What listens is something else."""
    for replies in ([], ["hello"], ['{"ok":{"quanta":0,"steps":0}}'], ["[3]"]):
        with pretended(replies) as path:
            wanted = f"no server of actorimage replies at {path}; write the path of its socket, or wait if it is about to end"
            same(sentence(Ended, SocketConnection, path), wanted)


def too_many(program):
    """A server with as many sessions as it may have, and the operator's."""
    with tempfile.TemporaryDirectory() as folder, Server(program, folder, "--workers", "1") as server:
        sessions = [SocketConnection(server.path) for _ in range(64 + 1)]
        wanted = f"the server at {server.path} has as many sessions as it may; try again later"
        same(sentence(Ended, SocketConnection, server.path), wanted)
        for it in sessions:
            it.end()


def once_more(program):
    """The first command of an entry is sent once more where the connection broke, and a later one is not."""
    answer = '{"ok":{"answer":1}}'
    with pretended([GREETED], [GREETED, answer], [GREETED, answer]) as path:
        told = []
        connection = Reconnecting(path, told.append, lambda: ["again"])
        same(connection.ask(OUTCOME), json.loads(answer))
        same(told, [BROKE.format(path), "again"])
        same(sentence(Lost, connection.ask, OUTCOME), f"{BROKE.format(path)}; the next entry connects again")
        connection.begin()
        same(connection.ask(OUTCOME), json.loads(answer))
        same(told, [BROKE.format(path), "again", "again"])
        connection.end()


def perhaps_accepted(program):
    """A message whose reply was lost is not posted twice on the same server, also if others post under the number."""
    for last in (3, 5):
        with pretended([GREETED], [GREETED, f'{{"error":"Old","last":{last}}}']) as path:
            connection = Reconnecting(path, lambda line: None, lambda: [])
            said = sentence(Lost, connection.ask, POST)
            wanted = "the number 3 of sender 7 was used before: perhaps this message was accepted when the connection broke"
            same(said, f"{wanted}; type it again if it was not")
            connection.end()


def begins_again(program):
    """Behind a new connection the image is asked for the sender's last message, and what it says is told."""
    new = "connected again; the image has no message of sender 7: it is another one, or was saved before, and names of actors may mean nothing"
    for here, reply, wanted in (
        (0, '{"error":"Old","last":0}', AGAIN),
        (3, '{"error":"Old","last":0}', new),
        (3, '{"error":"UnknownActor"}', new),
        (3, '{"error":"Old","last":3}', "connected again; the image has the messages of sender 7 up to number 3"),
        (3, '{"error":"Old","last":4}', "connected again; the image has the messages of sender 7 up to number 4"),
        (
            3,
            '{"error":"Old","last":2}',
            "connected again; the image was saved before: it has the messages of sender 7 up to number 2, and not those up to 3",
        ),
    ):
        with pretended([GREETED, NEWS], [GREETED, STATUS, reply, NEWS, '{"ok":{"sites":[]}}', NEWS]) as path:
            told = []
            session = Session(WatchedImage(path, 7), Breaks(), told.append)
            session.turns.last = here
            session.do(":stats A b")
            same(told, [BROKE.format(path), wanted, "A >> b sends nothing"])
            same(session.turns.last, int(reply[-2]) if "last" in reply else 0)
            session.end()


def numbered_anew(program):
    """Behind a new connection it is told that turns are numbered anew, unless the epoch is as it was."""
    old, sites = '{"error":"Old","last":0}', '{"ok":{"sites":[]}}'
    for epoch, wanted in (("7", []), ("8", [ANEW])):
        first = [GREETED, NEWS, STATUS, '{"ok":{"answer":1}}', NEWS]
        with pretended(first, [GREETED, STATUS.replace("7", epoch), old, NEWS, sites, NEWS]) as path:
            told = []
            session = Session(WatchedImage(path, 7), Breaks(), told.append)
            session.do(":turn 1 of actor 0")
            session.do(":stats A b")
            same(told, ["turn 1 of actor 0 answers 1", BROKE.format(path), AGAIN, *wanted, "A >> b sends nothing"])
            session.end()


def kept_are_told(program):
    """How many faults a served image keeps is told once: to who connects, and behind the first entry on a new connection."""
    failed = [{"actor": it, "fault": "overflow", "step": 12 + it, "turn": 7} for it in (1, 2)]
    last, sites = '{"error":"Old","last":0}', '{"ok":{"sites":[]}}'
    again = [GREETED, STATUS, last, news(failed[:1], 0, 30), sites, news([], 30, 30), sites, news([], 30, 30)]
    with pretended([GREETED, news(failed, 0, 30)], again) as path:
        told = []
        session = Session(WatchedImage(path, 7), Breaks(), told.append)
        session.news.tell_kept()
        for _ in range(2):
            session.do(":stats A b")
        said, nothing = "the image keeps {} from before;  :faults  lists {}".format, "A >> b sends nothing"
        same(told, [said("2 faults", "them"), BROKE.format(path), AGAIN, nothing, said("1 fault", "it"), nothing])
        session.end()


def nearly_full(program):
    """A checkpoint is offered where the image tells that a tenth of its history is left, or nothing, whoever has used it."""
    answer, turn = '{"ok":{"answer":1}}', "turn 1 of actor 0 answers 1"
    left, full = (STATUS.replace("899999", held) for held in ("900000", "1000000"))
    for full, wanted in ((STATUS, [turn]), (left, [turn, OFFER]), (full, [turn, FULL])):
        with pretended([GREETED, NEWS, full, answer, NEWS]) as path:
            told = []
            session = Session(ServedImage(path, 7), Breaks(), told.append)
            session.do(":turn 1 of actor 0")
            same(told, wanted)
            session.end()


def history_is_full(program):
    """What is refused since the history is full says how it is emptied, and no line says besides that something is left."""
    with pretended([GREETED, NEWS, STATUS.replace("899999", "1000000"), '{"error":"HistoryFull"}', NEWS]) as path:
        told = []
        session = Session(ServedImage(path, 7), Breaks(), told.append)
        session.known.names["c"], session.known.actor(0).class_name = {"ref": 0}, "Counter"
        session.do("c bump")
        same((len(told), told[0].startswith("HistoryFull: "), ":checkpoint" in told[0]), (1, True, True))
        session.end()


def news(faults, since, steps):
    return json.dumps({"ok": {"faults": faults, "from": since, "steps": steps}})


def asked_behind(session):
    """The steps behind which faults were asked for."""
    return [it["sent"]["after"] for it in map(json.loads, session.log.lines) if it["sent"]["cmd"] == "faults"]


def faults_are_told(program):
    """Faults are asked for behind each entry but a comment, each time from where they were told last, and those of actors that are one's own
    come first. Behind an older image it goes on from there."""
    one, two, *others = ({"actor": it, "fault": "overflow", "step": 12 + it, "turn": 7} for it in range(1, 65))
    replies = [news([one, two], 12, 30), news([], 30, 5), news([one, two, *others], 9, 99), NEWS]
    with pretended([GREETED, NEWS, *replies]) as path:
        told = []
        session = Session(ServedImage(path, 7), Breaks(), told.append)
        session.known.actor(2).is_own = True
        for text in (":names", '"Nothing."', ":names", ":names", ":names"):
            session.do(text)
        names, said = "nothing was named yet; name an actor as in  c := Counter actor", "actor {}: fault overflow in turn 7".format
        more = "and 61 more, besides those that are not kept;  :faults  lists them"
        same(told, [names, said(2), said(1), names, names, said(2), said(1), said(3), more, names])
        same(asked_behind(session), [0, 12, 30, 5, 99])
        session.end()


def faults_are_listed(program):
    """Where as many are listed as are kept, it is told how many failed before the first of them, if any did."""
    kept = [{"actor": 3, "fault": "overflow", "step": step, "turn": step} for step in range(9, 73)]
    actor = '{"ok":{"actors":[{"actor":3,"class":"A"}],"count":4}}'
    behind = "; where there is a journal,  ./actorimage replay  leads back there (docs/OPERATING.md, A journal)"
    said = [f"{it} failed before step 9, that of the first one that is kept{behind}" for it in ("1 turn", "1,136 turns")]
    for found, counted, more in ((kept, 1200, said[1:]), (kept, 65, said[:1]), (kept, 64, []), (kept[1:], 0, [])):
        asked = [json.dumps({"ok": {"faults": counted}})] if counted else []
        with pretended([GREETED, NEWS, news(found, 8, 99), actor, *asked, NEWS]) as path:
            told = []
            session = Session(ServedImage(path, 7), Breaks(), told.append)
            session.do(":faults 64")
            rows = [f"{it['step']:4}      3        A      {it['step']:4}  overflow" for it in found]
            same(told, ["step  actor  name  class  turn  fault", *rows, *more])
            session.end()


def no_faults_are_told(program):
    """An image that does not know the command is asked once, and `:why` says how the place is found."""
    ended, actor = '{"ok":{"fault":"overflow"}}', '{"ok":{"actors":[{"actor":0,"class":"A"}],"count":1}}'
    with pretended([GREETED, GREETED, STATUS, ended, GREETED, actor, GREETED]) as path:
        told = []
        session = Session(ServedImage(path, 7), Breaks(), told.append)
        for text in (":turn 1 of actor 0", ":why", ":faults"):
            session.do(text)
        meaning, place = "a result has over 64 bits; let the numbers stay smaller", "to find the place, see how far the methods came"
        unknown = "BadCommand: the program does not know this command; it and the workspace are not of the same version"
        wanted = ["fault overflow in turn 1 of actor 0", f"overflow: {meaning}", f"{place}, as in  :stats Counter bump", unknown]
        same((told, asked_behind(session)), (wanted, [0, 0]))
        session.end()


TRIALS = (
    begins_again, numbered_anew, kept_are_told, nearly_full, history_is_full, faults_are_told, faults_are_listed, no_faults_are_told,
    no_server_replies, too_many, once_more, perhaps_accepted,
)
