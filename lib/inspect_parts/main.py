"""Shows an image file as one page of HTML, which needs nothing else: no scripts, no fonts, no other file.

    bin/inspect FILE > page.html
    bin/inspect --try

The page has the classes with the sources of their methods, the actors with their objects, turns and pending messages, the names
and the senders. The file is checked by all rules of docs/FORMAT.md. If it breaks one, standard error says in one line which
place refuses it, where in the JSON, and what is wrong there; the status is 1.

--try runs the tool's own trials, on the files of tests/inspect and on others that it makes.
"""

import argparse
import os
import sys

from common.own_trials import trials_of

from .deep import deeply
from .page import page
from .reading import read_image
from .refused import BadImage

# The status where the work did not end well.
BROKE = 3


def arguments():
    plain = argparse.RawDescriptionHelpFormatter
    parser = argparse.ArgumentParser(prog="bin/inspect", description=__doc__, formatter_class=plain, usage=argparse.SUPPRESS)
    parser.add_argument("file", metavar="FILE", nargs="?")
    parser.add_argument("--try", dest="trials", action="store_true", help="run the tool's own trials")
    given = parser.parse_args()
    if (given.file is None) != given.trials:
        parser.error("give a FILE, or --try alone")
    return given


def on_one_line(name):
    """The name of a file, whatever its bytes are."""
    text = os.fsencode(name).decode(errors="replace")
    return "".join(letter if letter.isprintable() else "\N{REPLACEMENT CHARACTER}" for letter in text)


def show(name):
    """The status."""
    said = on_one_line(name)
    try:
        with open(name, "rb") as file:
            image = read_image(file.read())
    except BadImage as bad:
        return wrong(f"{said}: {bad.line()}")
    except OSError as error:
        return wrong(f"{said}: {error.strerror}")
    return write(page(image, os.path.basename(said)))


def write(text):
    """The status."""
    try:
        sys.stdout.buffer.write(text.encode())
        sys.stdout.flush()
    except OSError as error:
        os.dup2(os.open(os.devnull, os.O_WRONLY), sys.stdout.fileno())
        return 1 if isinstance(error, BrokenPipeError) else wrong(f"standard output: {error.strerror}")
    return 0


def wrong(sentence):
    print(f"bin/inspect: {sentence}", file=sys.stderr)
    return 1


def main():
    given = arguments()
    sys.stderr.reconfigure(errors="backslashreplace")
    try:
        status = deeply(trials_of("inspect").try_all if given.trials else lambda: show(given.file))
        sys.exit(BROKE if status is None else status)
    except KeyboardInterrupt:
        wrong("broken off")
        sys.exit(130)
