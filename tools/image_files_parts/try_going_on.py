"""Trials on sessions that go on from good files: their replies, and what they save."""

import json

from inspect_trials.try_common import good_files, read

from .program import same

CHECKPOINT, RUN = b'{"cmd":"checkpoint"}', b'{"cmd":"run"}'
PENDING = b'{"error":"Pending"}'


def post(selector, seq, args="[]"):
    """Client 1 posts to actor 0."""
    return b'{"actor":0,"args":%s,"cmd":"post","selector":"%s","sender":1,"seq":%d}' % (args.encode(), selector.encode(), seq)


def outcome(turn):
    """How a turn of actor 0 ended."""
    return b'{"actor":0,"cmd":"outcome","turn":%d}' % turn


def posted(turn):
    return b'{"ok":{"turn":%d}}' % turn


def answered(number):
    return b'{"ok":{"answer":%d}}' % number


def ran(quanta, steps):
    return b'{"ok":{"quanta":%d,"steps":%d}}' % (quanta, steps)


# What is shown, of which file, and the sessions one after the other, each of lines with their replies. Where None stands, the reply is
# left to the second implementation: see going_on.py.
SESSIONS = (
    (
        "what is pending stays pending, and the numbers of senders go on",
        "message-waits",
        [
            [
                (post("a", 1), b'{"error":"Old","last":1}'),
                (post("a", 2), posted(2)),
                (RUN, ran(2, 14)),
                (outcome(0), b'{"error":"Expired"}'),
                (outcome(1), answered(14)),
                (outcome(2), answered(14)),
            ]
        ],
    ),
    (
        "a class stands under the superclass that it got last",
        "moved",
        [[(post("go", 1), posted(1)), (RUN, ran(1, 6)), (outcome(1), answered(2))]],
    ),
    (
        "a turn goes on in the middle of a method, as turn 0, and sends what was installed since; its outcome is kept over one more file",
        "loop",
        [[(outcome(0), PENDING)], [(RUN, None)], [(outcome(0), answered(122))]],
    ),
    ("a mailbox that is closed stays closed", "varied", [[(post("x:", 1, "[1]"), b'{"error":"Closed"}')]]),
)


def sessions(program):
    """Each session has its replies, and its file is saved as it is by a session without lines."""
    tried = 0
    for about, name, its in SESSIONS:
        path = program.put(name, read(good_files()[name]))
        for lines in its:
            found = program.replies(about, path, [line for line, _ in lines])
            same(about, [reply for reply, (_, wanted) in zip(found, lines) if wanted], [wanted for _, wanted in lines if wanted])
            same(f"{about}: replies", len(found), len(lines))
            saved = read(path)
            same(f"{about}: replies to no lines", program.replies(about, path, []), [])
            same(f"{about}: what is saved again", read(path), saved)
            tried += 2
    return f"{tried} sessions"


def counts(program):
    """The counts of posts and steps go on from those of a file."""
    path = program.put("file", read(good_files()["message-waits"]))
    program.replies("counts", path, [post("a", 2), RUN])
    file = json.loads(read(path))
    same("counts", (file["posts"], file["steps"]), (2, 14))
    return "1 session"


def checkpoint(program):
    """A checkpoint counts what the image has counted with its files, and is nothing to the file that is saved behind it."""
    saved = []
    for lines, replies in (([post("a", 2)], [posted(2)]), ([post("a", 2), CHECKPOINT], [posted(2), b'{"ok":{"posts":2,"steps":0}}'])):
        path = program.put("file", read(good_files()["message-waits"]))
        same("replies", program.replies("a checkpoint", path, lines), replies)
        saved.append(read(path))
    same("what is saved", saved[1], saved[0])
    return "2 sessions"


TRIALS = (sessions, counts, checkpoint)
