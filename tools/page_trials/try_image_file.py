"""Trials of a page on an image file, which is read alone."""

import hashlib
import os
import subprocess
import sys
import tempfile

import actorimage
from page_parts.image_file import FileLine
from page_parts.journal_beside import journal_beside
from page_parts.page import Page

from .try_common import PAGE, PATIENCE, Opened, image_of, post, same, true, until


def a_file_is_shown(program):
    """A page on a file tells what one on a server tells that was started with it: classes, methods, actors with their turns; and it
    changes nothing."""
    with image_of(program, "--image", "shop.image") as (server, image):
        ledger, till, lost = (image.new_actor(it) for it in ("Ledger", "Till", "Customer"))
        post(image, 1, (till, "open:", ledger), (lost, "lose"))
        sender = image.sender(2)
        sender.post(till, "audit")
        sender.post(till, "sold")
        until(lambda: image.actors(till.number, 1)[0].running)
        image.save()
        path = os.path.join(server.folder, "shop.image")
        with open(path, "rb") as file:
            before = file.read()
        line, page = FileLine(path), Page(path, of_file=True)
        page.kept.catch_up("file")
        served = Page(server.path)
        served.kept.catch_up("x")
        same([it.row() for it in page.kept.classes.values()], [it.row() for it in served.kept.classes.values()])
        same(page.kept.history, served.kept.history)
        for command in ({"cmd": "senders", "selector": "priceOf:"}, {"cmd": "senders", "selector": "isEmpty"}, {"cmd": "edits", "from": 3}):
            same(line.ask(command), image.ask(command))
        same([(it["selector"], it["super"]) for it in line.ask({"cmd": "stats", "class": "NightTill", "selector": "sell:"})["sites"]],
            [("sell:", True), ("//", False)])
        same([(it["class"], it["open"]) for it in line.ask({"cmd": "actors", "from": 0, "most": 9})["actors"]],
            [(it.class_name, it.is_open) for it in image.actors()])
        for name in ("UnknownActor", "UnknownClass"):
            try:
                line.ask({"UnknownActor": {"cmd": "inspect", "actor": 99},
                    "UnknownClass": {"cmd": "stats", "class": "No", "selector": "no"}}[name])
                raise AssertionError("it is not refused")
            except actorimage.Refused as refused:
                same(refused.name, name)
        served.desk.rest()
        with Opened(path, of_file=True) as opened, opened.watching(view="actors", actor=till.number, table={"count": 9}) as events:
            told = until(lambda: next((it for it in events if it.get("inspected")), None))
            same(([it["selector"] for it in told["inspected"]["frames"]][0], told["inspected"]["waiting"], told["inspected"]["turn"]),
                ("audit", 1, 0))
            same(told["inspected"]["frames"][0]["source"].split()[0], "audit")
            same([it["state"] for it in told["table"]["rows"]], ["fresh", "turn", "fault"])
            same(opened.do("define", name="A", above="Object", slots=[])["error"], "OnlyLooks")
            same(opened.look("method", **{"class": "Till", "selector": "sell:"})["ok"]["sites"][0]["kind"], "empty")
        with open(path, "rb") as file:
            same(file.read() == before, True)


def a_journal_beside_is_told(program):
    """Of a journal beside a file it is said where it has what the file has not, as docs/FORMAT.md says which one that is."""
    with tempfile.TemporaryDirectory() as folder:
        path, data = os.path.join(folder, "image"), b"{}"

        def said(old=None, new=None):
            for name, text in ((".journal", old), (".journal.new", new)):
                if text is not None:
                    with open(path + name, "wb") as file:
                        file.write(text)
                elif os.path.exists(path + name):
                    os.remove(path + name)
            return journal_beside(path, data)

        digests = hashlib.sha256(data).hexdigest(), "0" * 64
        mine, other = (b'{"journal":{"capacity":64,"format":1,"image":"%s"}}\n' % it.encode() for it in digests)
        more = b'{"name":"a"}\n\n'
        same([said(), said(b""), said(b"\0\0"), said(mine + b"\n"), said(mine + b"\0" * 9), said(other + more, mine + b"\n")], [""] * 6)
        for parts, name in (((mine + more,), "image.journal,"), ((other + more, mine + more), "image.journal.new,")):
            told = said(*parts)
            true(told.startswith("What happened since") and f" {name} " in told, told)
        true("another image" in said(other + more) and "another image" in said(b"{nothing\n"), "another's journal is not told")


def other_files_are_refused(program):
    """A file that is no image, one that is not there, and a folder: said in a line."""
    with image_of(program, shop=False) as (server, _):
        bad = os.path.join(server.folder, "bad")
        with open(bad, "w", encoding="ascii") as file:
            file.write("{}")
        for path, part in ((bad, "shape"), (bad + "2", "No such file"), (server.folder, "no socket")):
            told = subprocess.run([sys.executable, PAGE, path], capture_output=True, text=True, timeout=PATIENCE, check=False)
            same((told.returncode, told.stdout), (1, ""))
            true(told.stderr.startswith("bin/page: ") and part in told.stderr and told.stderr.count("\n") == 1, told.stderr)


TRIALS = a_file_is_shown, a_journal_beside_is_told, other_files_are_refused
