"""What the trials have in common: an image that is served, a page on it, and questions to that."""

import contextlib
import http.client
import json
import os
import socket
import subprocess
import sys
import tempfile
import threading
import time

import actorimage
from common.repository import path_of_tool
from page_parts.letting_in import TOKEN
from page_parts.page import Page
from page_parts.serving import Server
from trial_parts.patience import PATIENCE, PAUSE
from workspace_trials.serving import Server as ImageServer
from workspace_trials.try_common import same

HERE = os.path.dirname(os.path.realpath(__file__))
WORKSPACE, PAGE, SHOP = path_of_tool("workspace"), path_of_tool("page"), os.path.join(HERE, "shop.st")
SECRET = "t" * 43


def until(holds, what="what was waited for"):
    """Waits until something holds, and gives that."""
    ends = time.monotonic() + PATIENCE
    while not (found := holds()):
        if time.monotonic() > ends:
            raise AssertionError(f"{what} did not come")
        time.sleep(PAUSE)
    return found


def true(found, what):
    if not found:
        raise AssertionError(what)


@contextlib.contextmanager
def image_of(program, *options, shop=True, workers="2", file=None):
    """A served image, with the classes of the shop or as a file has it, and a client of it."""
    with tempfile.TemporaryDirectory() as folder:
        if file is not None:
            with open(os.path.join(folder, "image"), "w", encoding="utf-8") as text:
                json.dump(file, text)
            shop, options = False, ("--image", "image", *options)
        with ImageServer(program, folder, "--workers", workers, *options) as server:
            if shop:
                load(server.path)
            with actorimage.connect(server.path) as image:
                yield server, image


def many(classes, actors):
    """An image file of so many classes beside the kernel's, C0 and on, and so many actors of the first 50 of them."""
    names = [f"C{number}" for number in range(classes)]
    edits = [{"define": {"name": it, "slots": [], "super": "Object" if number < 60 else names[number - 60]}} for number, it in enumerate(names)]
    edits.append({"install": {"class": "C0", "source": "bump ^7"}})

    def actor(name):
        body = {"objects": [{"class": name, "slots": []}], "phase": "fresh"}
        return {"body": body, "capacity": 64, "class": name, "last": 0, "open": True, "pending": []}

    made = [actor(names[number % min(50, classes)]) for number in range(actors)]
    return {"actors": made, "edits": edits, "format": 2, "names": ["bump"], "posts": 0, "senders": [], "steps": 0}


def load(path):
    """Loads the classes of the shop, as somebody at a workspace would."""
    command = [sys.executable, WORKSPACE, "--socket", path, SHOP]
    told = subprocess.run(command, input=b"", capture_output=True, timeout=PATIENCE, check=False)
    same((told.returncode, told.stderr), (0, b""))


class Opened:
    """A page on an image, in this process, and what one asks of it."""

    def __init__(self, path, looks_only=False, of_file=False):
        self.page = Page(path, looks_only, of_file)
        self.server = Server(self.page, SECRET)
        threading.Thread(target=self.server.serve_forever, args=(0.05,), daemon=True).start()

    def __enter__(self):
        return self

    def __exit__(self, *_):
        self.server.shutdown()
        self.server.server_close()
        self.page.desk.rest()

    @property
    def address(self):
        return self.server.address

    @property
    def port(self):
        return self.server.server_address[1]

    def good(self):
        """The headers of the page's own questions."""
        return {"Host": self.server.gate.host, "Origin": self.server.gate.origin, TOKEN: SECRET, "Content-Type": "application/json"}

    def asked(self, how, path, headers, body=None):
        """The status and the text of a reply."""
        connection = http.client.HTTPConnection("127.0.0.1", self.port, timeout=PATIENCE)
        try:
            connection.putrequest(how, path, skip_host=True, skip_accept_encoding=True)
            for name, values in headers.items():
                for value in values if isinstance(values, list) else [values]:
                    connection.putheader(name, value)
            if body is not None and "Content-Length" not in headers:
                connection.putheader("Content-Length", str(len(body)))
            connection.endheaders(body)
            reply = connection.getresponse()
            return reply.status, reply.read().decode()
        finally:
            connection.close()

    def ask(self, path, what, **more):
        """What the page's own question gets."""
        status, text = self.asked("POST", path, self.good(), json.dumps({"what": what, **more}).encode())
        same(status, 200)
        return json.loads(text)

    def look(self, what, **more):
        return self.ask("/look", what, **more)

    def do(self, what, **more):
        return self.ask("/do", what, **more)

    def type(self, text):
        """Types an entry, and gives its card once it is done."""
        number = self.page.typed.next + 1
        self.ask("/type", "", text=text)
        return until(lambda: next((it for it in self.page.typed.cards if it["number"] == number and it["seconds"] is not None), None))

    @contextlib.contextmanager
    def watching(self, **view):
        """The events that a window gets, as a list that grows."""
        events, seen = [], {"view": "browse", **view}
        connection = http.client.HTTPConnection("127.0.0.1", self.port, timeout=PATIENCE)
        connection.request("POST", "/watch", json.dumps(seen), self.good())
        # The reply takes the socket along, since it ends with it.
        stream, reply = connection.sock, connection.getresponse()
        same(reply.status, 200)

        def read():
            with contextlib.suppress(OSError, ValueError, AttributeError, http.client.HTTPException):
                for line in reply:
                    if line.startswith(b"data: "):
                        events.append(json.loads(line[6:]))

        threading.Thread(target=read, daemon=True).start()
        try:
            until(lambda: events, "the first event")
            yield events
        finally:
            with contextlib.suppress(OSError):
                stream.shutdown(socket.SHUT_RDWR)
            reply.close()


def post(image, sender, *messages):
    """Posts messages and waits until their turns have ended, however they do."""
    for turn in list(image.sender(sender).post_all(messages)):
        with contextlib.suppress(actorimage.Fault):
            image.wait(turn)


@contextlib.contextmanager
def beside(path, begun):
    """Does something each tenth of a second, in a session of its own; `begun` gives what is done, from the session."""
    ends = threading.Event()

    def work():
        with actorimage.connect(path) as image:
            do = begun(image)
            while not ends.wait(0.1):
                do()

    thread = threading.Thread(target=work)
    thread.start()
    try:
        yield
    finally:
        ends.set()
        thread.join()


def never_full(path):
    """Has a checkpoint each time the history is half full, as where turns go on that do not end."""

    def begun(image):
        def do():
            status = image.status()
            if status.history * 2 > status.history_most:
                image.checkpoint()

        return do

    return beside(path, begun)


def going_on(path, *rounds):
    """Posts the messages of each round again and again, as other clients do."""

    def begun(image):
        sender = image.sender(60_000)

        def do():
            for actor, selector, *values in rounds:
                with contextlib.suppress(actorimage.Full):
                    sender.post(actor, selector, *values)

        return do

    return beside(path, begun)
