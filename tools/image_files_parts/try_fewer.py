"""Trials on bin/fewer-edits and bin/fewer-names: what they leave out, and that all else goes on."""

import json
import os
import subprocess
import sys

from common.compact import compact
from common.repository import path_of_tool
from inspect_trials.try_common import good_files, read
from trial_parts.patience import PATIENCE

from .program import Ended, same

EDITS, NAMES = "fewer-edits", "fewer-names"
# A turn is in a method that is replaced and removed; the method that it sends is replaced time and again.
LINES = [
    b'{"cmd":"define","name":"J","slots":[],"super":"Object"}',
    b'{"class":"J","cmd":"method","source":"pay ^1"}',
    b'{"class":"J","cmd":"method","source":"gone ^1"}',
    b'{"class":"J","cmd":"method","source":"go [self pay > 0] whileTrue: [nil]. ^#old"}',
    b'{"class":"J","cmd":"actor"}',
    b'{"actor":0,"args":[],"cmd":"post","selector":"go","sender":1,"seq":1}',
    b'{"cmd":"run","quanta":2}',
    b'{"class":"J","cmd":"method","source":"go ^#new"}',
    b'{"class":"J","cmd":"remove","selector":"go"}',
    b'{"class":"J","cmd":"remove","selector":"gone"}',
    *(b'{"class":"J","cmd":"method","source":"pay ^%d"}' % it for it in range(2, 40)),
]
LEFT = [
    {"define": {"name": "J", "slots": [], "super": "Object"}},
    {"install": {"class": "J", "source": "go [self pay > 0] whileTrue: [nil]. ^#old"}},
    {"remove": {"class": "J", "selector": "go"}},
    {"install": {"class": "J", "source": "pay ^39"}},
]
MORE = [
    b'{"class":"J","cmd":"method","source":"pay ^0"}',
    b'{"actor":0,"args":[],"cmd":"post","selector":"go","sender":1,"seq":2}',
    b'{"cmd":"run"}',
    b'{"actor":0,"cmd":"outcome","turn":0}',
    b'{"actor":0,"cmd":"outcome","turn":1}',
]
ANSWERS = [
    b'{"ok":{"answer":{"sym":"old"}}}',
    b'{"ok":{"fault":"notUnderstood"}}',
]
# A class with one variable; an actor that keeps a symbol, whose turn goes on with another and for which a third waits.
WITH_NAMES = [
    b'{"cmd":"define","name":"J","slots":["kept"],"super":"Object"}',
    b'{"class":"J","cmd":"method","source":"keep: it kept := it"}',
    b'{"class":"J","cmd":"method","source":"spin: it [self waits] whileTrue: [nil]. ^it"}',
    b'{"class":"J","cmd":"method","source":"waits ^true"}',
    b'{"class":"J","cmd":"actor"}',
    b'{"actor":0,"args":[{"sym":"inObject"}],"cmd":"post","selector":"keep:","sender":1,"seq":1}',
    b'{"cmd":"run"}',
    b'{"actor":0,"args":[{"sym":"inTurn"}],"cmd":"post","selector":"spin:","sender":1,"seq":2}',
    b'{"actor":0,"args":[{"sym":"inMessage"}],"cmd":"post","selector":"nobodys:","sender":1,"seq":3}',
    b'{"cmd":"run","quanta":2}',
]
# The argument of `doesNotUnderstand:` is the selector.
ASKED = [
    b'{"class":"J","cmd":"method","source":"waits ^false"}',
    b'{"class":"J","cmd":"method","source":"doesNotUnderstand: it ^kept"}',
    b'{"cmd":"run"}',
    b'{"actor":0,"cmd":"outcome","turn":0}',
    b'{"actor":0,"cmd":"outcome","turn":1}',
]
NAMES_LEFT = ["keep:", "spin:", "waits", "inObject", "inTurn", "nobodys:", "inMessage"]
TOLD = [
    b'{"ok":{"version":6}}',
    b'{"ok":{"version":7}}',
    b'{"ok":{"answer":{"sym":"inTurn"}}}',
    b'{"ok":{"answer":{"sym":"inObject"}}}',
]


def tool(name, *words):
    done = subprocess.run([sys.executable, path_of_tool(name), *words], capture_output=True, timeout=PATIENCE)
    return Ended(done.returncode, done.stdout, done.stderr)


def counted(program, path):
    """The actors and classes of a file, which the program takes."""
    told = json.loads(program.check(path).out)["ok"]
    return told["actors"], told["classes"]


def good_files_stay(program):
    """Of good files nothing is lost but edits, or names."""
    files = good_files()
    parts = "format", "senders", "posts", "steps"
    for tool_name, parts in ((EDITS, parts), (NAMES, (*parts, "actors", "edits"))):
        for name, path in files.items():
            new = program.at(f"{name}-{tool_name}")
            done = tool(tool_name, path, new)
            same(f"{name}: the status", (done.status, done.err), (0, b""))
            same(f"{name}: what it has", counted(program, new), counted(program, path))
            before, after = json.loads(read(path)), json.loads(read(new))
            for part in parts:
                same(f"{name}: {part}", after.get(part), before.get(part))
    return f"{2 * len(files)} files"


def old_methods_go(program):
    """Replaced and removed methods are left out, but for one in which a turn is."""
    path, new = program.at("before"), program.at("after")
    same("the session", program.script(path, *LINES).status, 0)
    said = b"%s: 4 edits, of 45 in %s\n" % (os.fsencode(new), os.fsencode(path))
    same("what is said", tool(EDITS, path, new), Ended(0, said, b""))
    same("the edits", json.loads(read(new))["edits"], LEFT)
    same("a file that is there", tool(EDITS, path, new).status, 1)
    same("the turn and the next message", program.replies("fewer edits", new, MORE)[3:], ANSWERS)
    one = program.at("one")
    same("the session of one line", program.script(one, LINES[0]).status, 0)
    same("what is said of one edit", tool(EDITS, one, one + "2").out, b"%s2: 1 edit, of 1 in %s\n" % (os.fsencode(one), os.fsencode(one)))
    return "2 files"


def lines_of_symbols():
    """Lines that are refused, whose 8,200 new symbols fill the table of names."""
    for start in range(0, 8200, 400):
        args = [{"sym": f"u{number}"} for number in range(start, start + 400)]
        post = {"actor": 0, "args": args, "cmd": "post", "selector": "isNil", "sender": 1, "seq": 9}
        yield compact(post).encode()


def unused_names_go(program):
    """Names stay that a method, a turn, an object or a message has. The others make place for new ones."""
    path, new = program.at("before"), program.at("after")
    same("the session", program.script(path, *WITH_NAMES, *lines_of_symbols()).status, 0)
    method = b'{"class":"J","cmd":"method","source":"newest ^#newer"}'
    same("a new name", program.replies("a full table", path, [method]), [b'{"error":"TooMany","what":"names"}'])
    said = b"%s: %d names with the kernel's, of 8,192 in %s\n" % (os.fsencode(new), 22 + len(NAMES_LEFT), os.fsencode(path))
    same("what is said", tool(NAMES, path, new), Ended(0, said, b""))
    same("the names", json.loads(read(new))["names"], NAMES_LEFT)
    same("a file that is there", tool(NAMES, path, new).status, 1)
    replies = program.replies("fewer names", new, [method, *ASKED])
    same("all goes on", [it for it in replies if b"quanta" not in it], [b'{"ok":{"version":5}}', *TOLD])
    return "1 file"


TRIALS = (good_files_stay, old_methods_go, unused_names_go)
