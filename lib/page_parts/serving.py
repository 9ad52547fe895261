"""The server of the page: its files to whoever opens it, and its questions, changes and events to the page itself."""

import json
import os
import threading
from http.server import BaseHTTPRequestHandler, ThreadingHTTPServer
from urllib.parse import urlsplit

from .letting_in import HEADERS, MOST_BYTES, MOST_CONNECTIONS, OF_OTHERS, SECONDS, Gate, Refused, user_of

WEB = os.path.join(os.path.dirname(os.path.realpath(__file__)), "web")
KINDS = {"html": "text/html", "css": "text/css", "js": "text/javascript", "svg": "image/svg+xml"}


def files():
    """The files of the page by their paths. No other file is ever opened."""
    found = {f"/{name}": name for name in os.listdir(WEB) if name.rpartition(".")[2] in KINDS}
    return {**found, "/": "page.html"}


class Request(BaseHTTPRequestHandler):
    """One connection, with one request after the other. `asks` says whether the present one is more than a file."""

    protocol_version, server_version, sys_version, timeout = "HTTP/1.1", "actorimage", "", SECONDS
    asks = False

    def log_message(self, *_):
        """Nothing is logged: an address may be written down nowhere."""

    def setup(self):
        super().setup()
        self.user = user_of(self.client_address, self.connection.getsockname())

    def handle(self):
        """One connection beyond those that there may be is let go. Other users, who are refused, take no place of the own one."""
        room = self.server.room if self.user == os.getuid() else self.server.others
        if room.acquire(blocking=False):
            try:
                super().handle()
            except (ConnectionError, TimeoutError):
                pass
            finally:
                room.release()

    def send_error(self, code, message=None, explain=None):
        """What is no request at all, or of a kind that there is not."""
        self.close_connection = True
        self.reply(code, "text/plain", b"this is not taken\n")

    def do_GET(self):
        self.asks = False
        try:
            self.server.gate.check(self)
        except Refused as why:
            return self.refuse(why)
        name = self.server.files.get(urlsplit(self.path).path)
        if name is None:
            return self.reply(404, "text/plain", b"there is no such file\n")
        with open(os.path.join(WEB, name), "rb") as file:
            self.reply(200, KINDS[name.rpartition(".")[2]], file.read())

    def do_POST(self):
        self.asks = True
        try:
            self.server.gate.check(self)
            asked = self.body()
        except Refused as why:
            return self.refuse(why)
        if self.path == "/watch":
            return self.stream(self.server.page.watch(asked))
        answer = {"/look": self.server.page.look, "/do": self.server.page.do, "/type": self.server.page.type}.get(self.path)
        if answer is None:
            return self.reply(404, "text/plain", b"there is nothing to ask here\n")
        self.reply(200, "application/json", for_a_browser(answer(asked)))

    def body(self):
        try:
            length = int(self.headers.get("Content-Length", ""))
            if not 0 <= length <= MOST_BYTES:
                raise Refused("it is too large")
            asked = json.loads(self.rfile.read(length))
        except (ValueError, RecursionError):
            raise Refused("it is no JSON") from None
        if not isinstance(asked, dict):
            raise Refused("it is no object")
        return asked

    def reply(self, status, kind, body):
        self.begin(status, kind)
        self.send_header("Content-Length", str(len(body)))
        self.end_headers()
        self.wfile.write(body)

    def begin(self, status, kind):
        self.send_response(status)
        self.send_header("Content-Type", f"{kind}; charset=utf-8")
        for name, text in self.server.headers.items():
            self.send_header(name, text)

    def refuse(self, why):
        """What is left of a refused request is not read."""
        self.close_connection = True
        self.reply(403, "text/plain", f"refused: {why}\n".encode())

    def stream(self, events):
        """Events until the page leaves, which is seen when one cannot be written."""
        self.close_connection = True
        self.begin(200, "text/event-stream")
        self.send_header("Connection", "close")
        self.end_headers()
        try:
            for event in events:
                self.wfile.write(b"data: " + for_a_browser(event) + b"\n\n")
        except OSError:
            pass
        finally:
            events.close()


def for_a_browser(value):
    """ASCII alone: a text that was typed may have half of a surrogate pair, for which UTF-8 has nothing."""
    return json.dumps(value, separators=(",", ":")).encode()


class Server(ThreadingHTTPServer):
    """Listens on loopback alone."""

    daemon_threads, request_queue_size, allow_reuse_address = True, 64, False

    def __init__(self, page, token, port=0):
        super().__init__(("127.0.0.1", port), Request)
        self.page, self.gate, self.headers = page, Gate(self.server_address[1], token), HEADERS
        self.room, self.others = threading.BoundedSemaphore(MOST_CONNECTIONS), threading.BoundedSemaphore(OF_OTHERS)
        self.files = files()

    @property
    def address(self):
        """Where the page is. What stands behind # is in no request."""
        return f"{self.gate.origin}/#{self.gate.token}"

    def handle_error(self, request, client_address):
        """A connection that breaks is no news."""
