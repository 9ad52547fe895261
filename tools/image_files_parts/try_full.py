"""Trials on sessions that reach a limit in an image of a file."""

import json

from inspect_trials.try_limits import EMPTY, actor, actors, classes, define, edits, install
from inspect_trials.written import file_text

from .going_on import go_on
from .program import same

LARGEST = 2**64 - 1
MOST_EDITS, MOST_OF_A_SESSION = 4096, 2048


def too_many(what):
    return b'{"error":"TooMany","what":"%s"}' % what.encode()


def line(cmd, **more):
    return json.dumps({"cmd": cmd, **more}).encode()


def installs(count):
    return [line("method", **{"class": "Object"}, source="a ^2")] * count


def versions(first, last):
    return [b'{"ok":{"version":%d}}' % version for version in range(first, last + 1)]


def names(count):
    """A file with so many names, beside those of the kernel."""
    return {**EMPTY, "actors": [actor()], "names": [f"n{number}" for number in range(count)]}


def post(selector, seq):
    return line("post", actor=0, args=[], selector=selector, sender=1, seq=seq)


def sessions():
    """What is said of each file, the file, the lines of a session, and the replies."""
    new_actor, new_class = line("actor", **{"class": "Object"}), line("define", name="Further", slots=[], super="Object")
    yield "edits", edits(3000), installs(1097), [*versions(3001, MOST_EDITS), too_many("edits")]
    replies = [*versions(11, 10 + MOST_OF_A_SESSION), too_many("edits")]
    yield "edits of a session", edits(10), installs(MOST_OF_A_SESSION + 1), replies
    yield "names", names(8170), [post("further", 1), post("n1", 1)], [too_many("names"), b'{"ok":{"turn":1}}']
    yield "one name less", names(8169), [post("further", 1), post("more", 2)], [b'{"ok":{"turn":1}}', too_many("names")]
    yield "actors", actors(65_535), [new_actor, new_actor], [b'{"ok":{"actor":65535}}', too_many("actors")]
    yield "classes", classes(1024), [new_class], [too_many("classes")]


def full(program):
    """What there is no room for is refused, and the file that is saved then is good."""
    tried = 0
    for about, file, lines, wanted in sessions():
        path = program.put("file", file_text(file).encode())
        found = program.replies(about, path, lines)
        for number, (reply, its) in enumerate(zip(wanted, found)):
            same(f"{about}: reply {number + 1}", its, reply)
        same(f"{about}: replies", len(found), len(wanted))
        same(f"{about}: what is saved", program.check(path).status, 0)
        tried += 1
    return f"{tried} files"


def last_numbers(program):
    """An actor whose numbers are used up posts nothing more."""
    sources = ("two | a | a := thisActor post: #one. ^a == (thisActor post: #one)", "one ^1")
    pending = [{"args": [], "selector": "two", "sender": 1, "seq": 1}]
    for last in (LARGEST - 2, LARGEST - 1, LARGEST):
        body = {"objects": [{"class": "Poster", "slots": []}], "phase": "fresh"}
        poster = actor(**{"class": "Poster"}, body=body, last=last, pending=pending)
        changes = [define("Poster"), *(install(source, "Poster") for source in sources)]
        go_on(program, f"last {last}", file_text({**EMPTY, "actors": [poster], "edits": changes, "senders": [[1, 1]]}).encode())
    return "3 files"


TRIALS = (full, last_numbers)
