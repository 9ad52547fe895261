"""A page in the browser on a served image: its classes, its actors, pictures of what they do, and a workspace.

    bin/page SOCKET [--port N] [--open] [--look]
    bin/page FILE [--port N] [--open]
    bin/page --try PROGRAM [TRIAL..]

The page is served on 127.0.0.1 alone, to programs of the user who starts this, and to the page whose address is printed: behind # it has
a token, new at each start, without which nothing of the image is told. Do not hand it on: whoever has it, as this user, can do all
that a client of the image can. --open opens the page in a browser. --look makes a page that changes nothing. Without --port the
system chooses a port. From afar:  ssh -L N:127.0.0.1:N HOST  with --port N, and the same address. Of an image FILE the page shows what is in
it; nothing of it runs, and nothing is changed.

It asks the image once a second while a window of it is seen, and has three sessions then, each of a minute at most. Ctrl-C ends it; the
image goes on.

--try runs the tool's own trials, on servers of PROGRAM that it starts; those of a real browser want chromium and chromedriver.
"""

import argparse
import os
import secrets
import signal
import stat
import sys
import tempfile
import threading
import webbrowser

from common.own_trials import trials_of
from inspect_parts.refused import BadImage

from .page import Page
from .serving import Server


def arguments():
    plain = argparse.RawDescriptionHelpFormatter
    parser = argparse.ArgumentParser(prog="bin/page", description=__doc__, formatter_class=plain, usage=argparse.SUPPRESS)
    parser.add_argument("socket", metavar="SOCKET", nargs="?", help="where the server of the image listens, or an image file")
    parser.add_argument("--port", metavar="N", type=int, default=0, help="the port of the page")
    parser.add_argument("--open", action="store_true", help="open the page in a browser")
    parser.add_argument("--look", action="store_true", help="change nothing")
    parser.add_argument("--try", dest="program", metavar="PROGRAM", help="run the tool's own trials")
    parser.add_argument("trials", metavar="TRIAL", nargs="*", help="the trials that are run; all, if none is named")
    found = parser.parse_intermixed_args()
    if found.program and found.socket:
        found.trials = [found.socket, *found.trials]
        found.socket = None
    if (found.socket is None) == (found.program is None) or found.socket and found.trials:
        parser.error("give the path of a server's SOCKET, or --try alone")
    if not 0 <= found.port < 65_536:
        parser.error("--port takes 0 to 65535")
    return found


def opened(address):
    """A file, which this user alone reads, that leads to the page: the words of a command can be read by all users."""
    folder = tempfile.TemporaryDirectory(prefix="actorimage-page-")
    path = os.path.join(folder.name, "page.html")
    with open(os.open(path, os.O_WRONLY | os.O_CREAT | os.O_EXCL, 0o600), "w", encoding="ascii") as file:
        file.write(f'<!DOCTYPE html><meta http-equiv="refresh" content="0; url={address}"><title>actorimage</title>\n')
    threading.Thread(target=webbrowser.open, args=(f"file://{path}",), daemon=True).start()
    return folder


def serve(found):
    """The status."""
    try:
        mode = os.stat(found.socket).st_mode
        if not stat.S_ISSOCK(mode) and not stat.S_ISREG(mode):
            return wrong(f"{found.socket} is no socket, and no image file")
        server = Server(Page(found.socket, found.look, stat.S_ISREG(mode)), secrets.token_urlsafe(32), found.port)
    except BadImage as bad:
        return wrong(f"{found.socket}: {bad.line()}")
    except OSError as error:
        return wrong(f"{found.socket if error.filename else 'the port'}: {error.strerror}")
    print(server.address, flush=True)
    folder = opened(server.address) if found.open else None
    try:
        server.serve_forever(0.1)
    except KeyboardInterrupt:
        pass
    finally:
        server.server_close()
        if folder:
            folder.cleanup()
    return 0


def wrong(sentence):
    print(f"bin/page: {sentence}", file=sys.stderr)
    return 1


def main():
    found = arguments()
    for number in (signal.SIGTERM, signal.SIGHUP):
        signal.signal(number, lambda number, frame: sys.exit(128 + number))
    if found.program:
        sys.exit(trials_of("page").try_all(os.path.abspath(found.program), found.trials))
    sys.exit(serve(found))
