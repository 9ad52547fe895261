"""Who gets in: the page that this server gave out, opened by the user who started it. Anything else is refused before it is read.

Each answer to a danger is a check with a name, so that a trial can take one out and see that the danger is there then."""

import hmac
import os

# The header with the token. A page of another origin cannot send it without being asked for, and this server answers no such question.
TOKEN = "X-Actorimage"
# Bytes of a request, connections at once, and seconds in which a request has to be there whole.
MOST_BYTES, MOST_CONNECTIONS, SECONDS = 32_768, 32, 15
# Connections at once of other users, who are refused.
OF_OTHERS = 4
# What a page may do: load its own files and ask its own server, and nothing else. No text can become a script or an element.
POLICY = {
    "default-src": "'none'",
    "script-src": "'self'",
    "style-src": "'self'",
    "connect-src": "'self'",
    "img-src": "'self'",
    "base-uri": "'none'",
    "form-action": "'none'",
    "frame-ancestors": "'none'",
    "require-trusted-types-for": "'script'",
    "trusted-types": "'none'",
}
HEADERS = {
    "Content-Security-Policy": "; ".join(f"{name} {what}" for name, what in POLICY.items()),
    "X-Content-Type-Options": "nosniff",
    "X-Frame-Options": "DENY",
    "Referrer-Policy": "no-referrer",
    "Cache-Control": "no-store",
    "Cross-Origin-Opener-Policy": "same-origin",
    "Cross-Origin-Resource-Policy": "same-origin",
}
# The states of a connection in /proc/net/tcp that stands. One that its owner has closed is listed there as root's.
STANDS = "01"
# How often that is read at most.
LOOKS = 3


class Refused(Exception):
    """A request that is not let in; the text says why."""


def end_in_table(address):
    """An end of a connection as /proc/net/tcp writes it: the bytes of the address backwards, and the port."""
    host, port = address
    return "".join(f"{int(part):02X}" for part in reversed(host.split("."))) + f":{port:04X}"


def user_of(peer, own, table="/proc/net/tcp"):
    """The user at the other end of a connection of this machine; None if the connection is not listed as one that stands. Where
    the system has no such table, the token alone decides. The table is read in parts, and a row may be passed over where others come and
    go meanwhile: so it is read again before nobody is there."""
    ends = end_in_table(peer), end_in_table(own)
    for _ in range(LOOKS):
        try:
            with open(table, encoding="ascii") as file:
                rows = [line.split() for line in file]
        except OSError:
            return os.getuid()
        for row in rows:
            if (row[1], row[2]) == ends and row[3] == STANDS:
                return int(row[7])
    return None


def same_user(gate, request):
    """Loopback is open to all users of a machine, and the image's socket is not."""
    if request.user != os.getuid():
        raise Refused("another user of this machine")


def same_host(gate, request):
    """A name that somebody lets mean this address would make other pages into pages of this origin."""
    if request.headers.get_all("Host") != [gate.host]:
        raise Refused("the Host is not this page's")


def same_origin(gate, request):
    """Browsers say from which page a request comes."""
    given = request.headers.get("Origin")
    if given != gate.origin if request.asks else given not in (None, gate.origin):
        raise Refused("the Origin is not this page's")


def same_site(gate, request):
    """The page itself may be opened from anywhere, as by a link. What it loads and asks for comes from itself."""
    headers = request.headers
    opens = (headers.get("Sec-Fetch-Mode"), headers.get("Sec-Fetch-Dest")) == ("navigate", "document") and not request.asks
    if not opens and headers.get("Sec-Fetch-Site", "none") not in ("none", "same-origin"):
        raise Refused("it comes from another site")


def has_token(gate, request):
    """The files of the page hold nothing of the image, and have to be there before the page can send the token."""
    if request.asks and not hmac.compare_digest(request.headers.get(TOKEN, "").encode(), gate.token.encode()):
        raise Refused("the token is missing or another one")


def is_json(gate, request):
    """A form of another page can send neither this kind nor the token."""
    if request.asks and request.headers.get("Content-Type") != "application/json":
        raise Refused("it is no request of the page")


CHECKS = {
    "user": same_user,
    "host": same_host,
    "origin": same_origin,
    "site": same_site,
    "token": has_token,
    "json": is_json,
}


class Gate:
    """What a request has to fit. `checks` are those that are made, in this order."""

    def __init__(self, port, token, checks=tuple(CHECKS)):
        self.host, self.token, self.checks = f"127.0.0.1:{port}", token, checks
        self.origin = f"http://{self.host}"

    def check(self, request):
        """Refused where the request is not let in. A request has its `headers`, the `user` at its other end, and whether it `asks`
        something of the image."""
        for name in self.checks:
            CHECKS[name](self, request)
