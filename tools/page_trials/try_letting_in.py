"""Trials of who gets in. Each danger is tried twice: as it is, and with its answer taken out, where it must get through."""

import contextlib
import http.client
import json
import os
import shutil
import socket
import subprocess
import sys
import threading
import webbrowser

from page_parts import serving
from page_parts.letting_in import CHECKS, MOST_BYTES, MOST_CONNECTIONS, OF_OTHERS, user_of
from page_parts.main import opened as led
from page_parts.serving import Request

from .try_common import PAGE, PATIENCE, SECRET, Opened, image_of, same, true, until

# What the headers say, written again: one that is taken out is missed.
POLICY = ("default-src 'none'", "script-src 'self'", "style-src 'self'", "connect-src 'self'", "img-src 'self'", "base-uri 'none'",
    "form-action 'none'", "frame-ancestors 'none'", "require-trusted-types-for 'script'", "trusted-types 'none'")
SAID = {"Content-Security-Policy": "; ".join(POLICY), "X-Content-Type-Options": "nosniff", "X-Frame-Options": "DENY",
    "Referrer-Policy": "no-referrer", "Cache-Control": "no-store", "Cross-Origin-Opener-Policy": "same-origin",
    "Cross-Origin-Resource-Policy": "same-origin"}
# Connections, and seconds in which a request has to be there.
ROOM, SECONDS = 32, 15
LOOK = json.dumps({"what": "implementors", "selector": "isNil"}).encode()


def attacks(opened):
    """Each danger with the check that answers it: what is sent, and whether it is a question or a file."""
    good, port = opened.good(), opened.port
    without = lambda name: {key: value for key, value in good.items() if key != name}  # noqa: E731
    asks = [
        ("token", "no token", without("X-Actorimage")),
        ("token", "another token", {**good, "X-Actorimage": "u" * len(SECRET)}),
        ("token", "a token with more behind it", {**good, "X-Actorimage": SECRET + "t"}),
        ("origin", "a page of another origin that has the token", {**good, "Origin": "http://evil.example"}),
        ("origin", "a page without an origin", {**good, "Origin": "null"}),
        ("origin", "a program that says no origin", without("Origin")),
        ("origin", "a page of another port", {**good, "Origin": f"http://127.0.0.1:{port - 1}"}),
        ("host", "a name that was bound to this address", {**good, "Host": f"evil.example:{port}"}),
        ("host", "localhost, which is another origin", {**good, "Host": f"localhost:{port}"}),
        ("host", "no host", without("Host")),
        ("host", "two hosts", {**good, "Host": [f"127.0.0.1:{port}", "evil.example"]}),
        ("json", "a form", {**good, "Content-Type": "text/plain"}),
        ("json", "a form of fields", {**good, "Content-Type": "application/x-www-form-urlencoded"}),
        ("site", "a request of another site", {**good, "Sec-Fetch-Site": "cross-site"}),
        ("site", "a request of the same site and another port", {**good, "Sec-Fetch-Site": "same-site"}),
    ]
    files = [
        ("host", "the page by a name that was bound", {"Host": f"evil.example:{port}"}),
        ("origin", "a file for another origin", {"Host": f"127.0.0.1:{port}", "Origin": "http://evil.example"}),
        ("site", "a script in another site's page",
            {"Host": f"127.0.0.1:{port}", "Sec-Fetch-Site": "cross-site", "Sec-Fetch-Mode": "no-cors", "Sec-Fetch-Dest": "script"}),
        ("site", "the page in another site's frame",
            {"Host": f"127.0.0.1:{port}", "Sec-Fetch-Site": "cross-site", "Sec-Fetch-Mode": "navigate", "Sec-Fetch-Dest": "iframe"}),
    ]
    return [(check, name, "POST", "/look", headers, LOOK) for check, name, headers in asks] + [
        (check, name, "GET", "/", headers, None) for check, name, headers in files
    ]


def only_the_page(program):
    """The page's own requests are answered, and no others; each other one is, where the check that refuses it is taken out."""
    with image_of(program, shop=False) as (server, _), Opened(server.path) as opened:
        same(opened.asked("POST", "/look", opened.good(), LOOK)[0], 200)
        same(opened.server.server_address[0], "127.0.0.1")
        own = {"Host": opened.server.gate.host}
        for path in ("/", "/main.js", "/look.css", "/icon.svg"):
            same(opened.asked("GET", path, own)[0], 200)
        link = {**own, "Sec-Fetch-Site": "cross-site", "Sec-Fetch-Mode": "navigate", "Sec-Fetch-Dest": "document"}
        same(opened.asked("GET", "/", link)[0], 200)
        for path in ("/../page.py", "/..%2fpage.py", "//etc/passwd", "/web/main.js", "/shop.st", "/look"):
            same(opened.asked("GET", path, own)[0], 404)
        same(opened.asked("POST", "/nothing", opened.good(), LOOK)[0], 404)
        for method in ("OPTIONS", "PUT", "DELETE", "HEAD", "CONNECT"):
            same(opened.asked(method, "/look", opened.good())[0], 501)
        for check, name, how, path, headers, body in attacks(opened):
            opened.server.gate.checks = tuple(CHECKS)
            same((name, opened.asked(how, path, headers, body)[0]), (name, 403))
            opened.server.gate.checks = tuple(it for it in CHECKS if it != check)
            same((name, opened.asked(how, path, headers, body)[0]), (name, 200))


def no_other_user(program):
    """Another user of the machine gets nothing, even with the token; a connection that its owner has closed is nobody's."""
    if os.geteuid() != 0 or not shutil.which("setpriv"):
        return "left out: it needs root and setpriv"
    ask = (
        "import http.client, json, sys; c = http.client.HTTPConnection('127.0.0.1', int(sys.argv[1]));"
        "c.request('POST', '/look', sys.argv[3], json.loads(sys.argv[2])); print(c.getresponse().status)"
    )
    with image_of(program, shop=False) as (server, _), Opened(server.path) as opened:
        other = ["setpriv", "--reuid=65534", "--regid=65534", "--clear-groups",
            shutil.which("python3", path="/usr/bin:/bin") or sys.executable]

        def status():
            words = [*other, "-c", ask, str(opened.port), json.dumps(opened.good()), LOOK.decode()]
            return subprocess.run(words, capture_output=True, text=True, timeout=PATIENCE, cwd="/").stdout.strip()

        same(status(), "403")
        opened.server.gate.checks = tuple(it for it in CHECKS if it != "user")
        same(status(), "200")
        with socket.create_server(("127.0.0.1", 0)) as listening:
            code = f"import socket; c = socket.create_connection(('127.0.0.1', {listening.getsockname()[1]})); c.sendall(b'x'); c.close()"
            subprocess.run([*other, "-c", code], check=True, timeout=PATIENCE, cwd="/")
            accepted, peer = listening.accept()
            with accepted:
                same(user_of(peer, accepted.getsockname()), None)
            with socket.create_connection(listening.getsockname()) as own:
                accepted, peer = listening.accept()
                with accepted:
                    same(user_of(own.getsockname(), accepted.getsockname()), os.getuid())
    return None


def others_take_no_place(program):
    """As many connections of another user as there may be of the own one leave room for that; where they are counted with the own ones,
    they do not."""
    if os.geteuid() != 0 or not shutil.which("setpriv"):
        return "left out: it needs root and setpriv"
    hold = ("import socket, sys, time; all = [socket.create_connection(('127.0.0.1', int(sys.argv[1]))) for _ in range(int(sys.argv[2]))];"
        "print('held', flush=True); sys.stdin.read()")
    python = shutil.which("python3", path="/usr/bin:/bin") or sys.executable
    with image_of(program, shop=False) as (server, _), Opened(server.path) as opened:
        for counts in (False, True):
            # Each connection of another user keeps its place until it is refused or leaves.
            opened.server.others = opened.server.room if counts else threading.BoundedSemaphore(OF_OTHERS)
            words = ["setpriv", "--reuid=65534", "--regid=65534", "--clear-groups", python, "-c", hold, str(opened.port), str(ROOM)]
            other = subprocess.Popen(words, stdin=subprocess.PIPE, stdout=subprocess.PIPE, cwd="/", text=True)
            try:
                same(other.stdout.readline(), "held\n")
                if counts:
                    until(lambda: not opened.server.room.acquire(blocking=False) or opened.server.room.release(), "the end of the room")
                same((counts, is_let_in(opened)), (counts, not counts))
            finally:
                other.communicate()
            until(lambda: is_let_in(opened))
    return None


def bodies_are_bounded(program):
    """A body that is too large, that is no JSON or no object, or that does not come; and more connections than there may be."""
    with image_of(program, shop=False) as (server, _), Opened(server.path) as opened:
        big = b'{"what":"' + b"x" * MOST_BYTES + b'"}'
        for body in (big, b"[1]", b"{", b"\xff", b"[" * 20_000):
            same(opened.asked("POST", "/look", opened.good(), body)[0], 403)
        before, serving.MOST_BYTES = MOST_BYTES, 10**9
        try:
            same(opened.asked("POST", "/look", opened.good(), b'{"what":"' + b"x" * MOST_BYTES + b'"}')[0], 200)
        finally:
            serving.MOST_BYTES = before
        for length in ("-1", "x", "", "99999999999999999999"):
            same(opened.asked("POST", "/look", {**opened.good(), "Content-Length": length}, b"")[0], 403)
        same(opened.look("none such")["error"], "BadCommand")
        same(opened.look("method")["error"], "BadCommand")
        bad = {"method": {"class": [], "selector": 3}, "senders": {"selector": {}}, "running": {}, "gone": {"class": {}},
            "see": {"view": 7}}
        for what, more in bad.items():
            same((what, opened.look(what, **more).get("error")), (what, "BadCommand"))
        with opened.watching(view="actors", table={"first": 0, "count": 5}) as events:
            until(lambda: events[-1:] and events[-1].get("table"))
            for view in (7, {"view": "actors", "table": 7}, {"view": "actors", "actor": "x"}, {"method": 1}):
                same(opened.look("see", window=events[0]["window"], view=view)["error"], "BadCommand")
            last = len(events)
            until(lambda: len(events) > last and events[-1].get("table"), "a tick behind questions that are none")
        same((MOST_BYTES, MOST_CONNECTIONS), (32_768, ROOM))
        many = [socket.create_connection(("127.0.0.1", opened.port)) for _ in range(MOST_CONNECTIONS)]
        try:
            until(lambda: not opened.server.room.acquire(blocking=False) or opened.server.room.release())
            with socket.create_connection(("127.0.0.1", opened.port), timeout=PATIENCE) as late:
                same(late.recv(1), b"")
            bounded, opened.server.room = opened.server.room, threading.BoundedSemaphore(2 * MOST_CONNECTIONS)
            same(opened.asked("GET", "/", {"Host": opened.server.gate.host})[0], 200)
            opened.server.room = bounded
        finally:
            for it in many:
                it.close()
        until(lambda: is_let_in(opened))


def is_let_in(opened):
    """Whether the page is given out. Where there are as many connections as there may be, this one is let go without a word."""
    with contextlib.suppress(ConnectionError, http.client.BadStatusLine):
        return opened.asked("GET", "/", {"Host": opened.server.gate.host})[0] == 200
    return False


def slow_ones_are_let_go(program):
    """A request that does not come whole ends its connection, and the page is there for others meanwhile. Only this connection is let go
    soon: a busy machine may be slow with the others too."""
    begun = threading.Event()

    class Hasty(Request):
        timeout = 0.5

        def setup(self):
            super().setup()
            begun.set()

    with image_of(program, shop=False) as (server, _), Opened(server.path) as opened:
        true(Request.timeout <= SECONDS, f"a request may take {Request.timeout} seconds")
        opened.server.RequestHandlerClass = Hasty
        with socket.create_connection(("127.0.0.1", opened.port), timeout=PATIENCE) as slow:
            slow.sendall(b"POST /look HTTP/1.1\r\nHost: ")
            true(begun.wait(PATIENCE), "the connection is not taken")
            opened.server.RequestHandlerClass = Request
            same(opened.asked("POST", "/look", opened.good(), LOOK)[0], 200)
            same(slow.recv(1), b"")


def the_token_is_hidden(program):
    """It is new at each start, behind #, in no header and in no word of a command; and the headers forbid what a page need not do."""
    with image_of(program, shop=False) as (server, _), Opened(server.path) as opened:
        true(opened.address.endswith(f"/#{SECRET}"), "the token stands behind #")
        with socket.create_connection(("127.0.0.1", opened.port), timeout=PATIENCE) as stream:
            stream.sendall(f"GET / HTTP/1.1\r\nHost: {opened.server.gate.host}\r\nConnection: close\r\n\r\n".encode())
            text = b"".join(iter(lambda: stream.recv(65536), b"")).decode()
        true(SECRET not in text, "the token is in a reply")
        true("set-cookie" not in text.lower(), "a cookie is set")
        for name, value in SAID.items():
            true(f"{name}: {value}\r\n" in text, f"{name} is missing")
        started = [subprocess.Popen([sys.executable, PAGE, server.path], stdout=subprocess.PIPE, text=True) for _ in range(2)]
        try:
            addresses = [it.stdout.readline().strip() for it in started]
            tokens = [it.partition("#")[2] for it in addresses]
            true(tokens[0] != tokens[1] and all(len(it) >= 43 for it in tokens), f"the tokens are {tokens}")
            same([it.startswith("http://127.0.0.1:") for it in addresses], [True, True])
        finally:
            for it in started:
                it.terminate()
                it.wait()
                it.stdout.close()
        calls, before = [], webbrowser.open
        webbrowser.open = calls.append
        try:
            with led(opened.address) as folder:
                path = os.path.join(folder, "page.html")
                same((os.stat(path).st_mode & 0o777, os.stat(folder).st_mode & 0o777), (0o600, 0o700))
                until(lambda: calls)
                same(calls, [f"file://{path}"])
        finally:
            webbrowser.open = before


def looking_changes_nothing(program):
    """A page that only looks: no change, no message, no entry that would do either; and all looks."""
    with image_of(program) as (server, image), Opened(server.path, looks_only=True) as opened:
        till = image.new_actor("Till")
        before = image.status()
        for what in ("install", "remove", "define", "reparent", "actor", "close", "checkpoint", "save"):
            same((what, opened.do(what, **{"class": "Till", "selector": "sold", "source": "sold ^1",
                "seen": {"selector": "sold", "version": 1}, "actor": 0})["error"]), (what, "OnlyLooks"))
        for text in ("Till actor", f"actor {till.number} sold", "Till >> sold  ^0", "A : Object", ":remove Till sold", ":checkpoint",
            ":save", ":revert Till sold 3"):
            card = opened.type(text)
            same((text, card["state"]), (text, "refused"))
        for text in (":classes", ":methods Till", ":inspect actor 0", ":actors", ":senders sold", ":versions Till sold"):
            card = opened.type(text)
            same((text, card["state"]), (text, "done"))
        for line in (opened.page.desk.looks, opened.page.desk.typed, opened.page.desk.changes):
            true(line.looks_only, "a session takes changes")
        after = image.status()
        same([getattr(after, it) for it in ("actors", "classes", "edits", "history", "names", "posts")],
            [getattr(before, it) for it in ("actors", "classes", "edits", "history", "names", "posts")])
        same(image.actors()[0].accepted, 0)


def nothing_of_files(program):
    """What is typed reads and writes no files, whoever gets in."""
    with image_of(program) as (server, _), Opened(server.path) as opened:
        target = server.path + ".written"
        for text in (f":sources {target}", f":log {target}", f":save {target}", f":load {__file__}", ":restart", ":quit"):
            same((text, opened.type(text)["state"]), (text, "refused"))
        true(not os.path.exists(target), "a file was written")
        same(opened.type("t := Till actor. t sold")["lines"], ["nil"])


TRIALS = (
    only_the_page, no_other_user, others_take_no_place, bodies_are_bounded, slow_ones_are_let_go, the_token_is_hidden, looking_changes_nothing, nothing_of_files,
)
