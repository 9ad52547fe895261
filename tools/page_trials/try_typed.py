"""Trials of the workspace of the page, of an image that is lost or full, and of the sessions that a page has."""


import actorimage
from page_parts import desk, watch
from workspace_trials.serving import Server as ImageServer

from .try_common import Opened, image_of, load, same, true, until


def entries_are_done(program):
    """Definitions, methods, messages and commands, with what the workspace says; an entry for each; and what a fault says besides."""
    with image_of(program, shop=False) as (server, image), Opened(server.path) as opened:
        for text, lines in [
            ("Counter : Object | count |", ["class Counter, version 1"]),
            ("Counter >> bump\n  count isNil ifTrue: [count := 0].\n  count := count + 1.\n  ^count", []),
            ("c := Counter actor", ["actor 0"]),
            ("c bump. c bump", ["2"]),
            ("c bumpp", ["fault notUnderstood in turn 3 of actor 0"]),
            (":senders bump", ["no method sends bump, and none has the symbol #bump"]),
            ("Counter >> bad  ^(3 +", ["  ^(3 +", "       ^ BadToken: the method ends where an operand is expected"]),
        ]:
            same((text, opened.type(text)["lines"]), (text, lines))
        cards = opened.page.typed.cards
        same([it["state"] for it in cards], ["done"] * 4 + ["fault", "done", "refused"])
        true("bump" in " ".join(cards[4]["why"]), f"the fault says {cards[4]['why']}")
        with opened.watching() as events:
            told = until(lambda: next((it for it in events if "cards" in it), None))
            same((len(told["cards"]), told["names"]), (7, [{"name": "c", "text": "actor 0", "actor": 0}]))
            opened.type("c bump")
            last = until(lambda: next((it for it in reversed(events) if it.get("cards") and it["cards"][-1]["state"] == "done"
                and it["cards"][-1]["number"] == 8), None))
            same([it["lines"] for it in last["cards"]], [["3"]])
        before = opened.page.typed.next
        opened.ask("/type", "", text="c bump.\n\nc bump\nCounter >> two ^2")
        until(lambda: opened.page.typed.next == before + 3 and opened.page.typed.cards[-1]["seconds"] is not None)
        same([it["lines"] for it in opened.page.typed.cards[-3:]], [["4"], ["5"], []])


def a_long_turn_is_waited_for(program):
    """While an entry waits others look and change; it is told what runs; it is broken off, or ends by an edit."""
    with image_of(program) as (server, image), Opened(server.path) as opened, opened.watching() as events:
        opened.ask("/type", "", text="t := Till actor. t audit")
        waits = until(lambda: next((it["waitsFor"] for it in reversed(events) if (it.get("waitsFor") or {}).get("runs")), None))
        same((waits["actor"], waits["turn"], waits["runs"] in ("Till › audit", "Till › weigh:")), (0, 1, True))
        same("source" in opened.look("method", **{"class": "Till", "selector": "audit"})["ok"], True)
        opened.ask("/type", "", **{"break": True})
        card = until(lambda: next((it for it in opened.page.typed.cards if it["seconds"] is not None), None))
        true("goes on in the server" in " ".join(card["lines"]), card["lines"])
        opened.ask("/type", "", text="t sold")
        until(lambda: opened.page.typed.cards[-1]["state"] == "runs")
        image.install("Till", "weigh: n ^false")
        until(lambda: opened.page.typed.cards[-1]["state"] == "done")
        same(opened.page.typed.cards[-1]["lines"][-1], "nil")


def entries_that_wait_are_told(program):
    """Each entry is told at once, also while another one goes on; where that is broken off, those behind it are given back, and told to
    have not begun."""
    with image_of(program) as (server, image), Opened(server.path) as opened, opened.watching() as events:
        def cards():
            return {it["typed"]: it["state"] for event in events for it in event.get("cards", [])}

        opened.ask("/type", "", text="t := Till actor. t audit")
        until(lambda: opened.page.typed.waits_for())
        opened.ask("/type", "", text="t sold")
        opened.ask("/type", "", text="Till >> two\n  ^2")
        until(lambda: len(cards()) == 3, "the entries that wait")
        same(list(cards().values()), ["runs", "waits", "waits"])
        same(opened.ask("/type", "", **{"break": True})["ok"], ["t sold", "Till >> two\n  ^2"])
        until(lambda: list(cards().values()) == ["refused", "broken", "broken"], "the entries that have not begun")
        same(opened.ask("/type", "", **{"break": True})["ok"], [])


def a_server_that_ends_is_told(program):
    """The page says that the server went away, keeps what it knows, and is there again with another server; changes and entries say so
    too, and what the page does then."""
    with image_of(program) as (server, image), Opened(server.path) as opened:
        opened.type("t := Till actor. t sold")
        opened.do("close", actor=99)
        with opened.watching(view="actors", table={"count": 5}) as events:
            until(lambda: events[-1].get("figures"))
            image.end()
            server.end()
            lost = until(lambda: next((it for it in events if it["state"] == "lost" and it["asOf"]), None))
            same(lost["said"], desk.WENT_AWAY)
            told = [opened.do("define", name="A", above="Object", slots=[]) for _ in range(2)]
            same((told[0]["error"], told[0]["said"]), ("Lost", f"{desk.WENT_AWAY}; {desk.PERHAPS}; {desk.GOES_ON}"))
            true(told[1]["said"].startswith("no server listens at ") and told[1]["said"].endswith(f"; {desk.GOES_ON}"), told[1]["said"])
            card = opened.type("t sold")
            same((card["state"], card["lines"]), ("lost", [f"{desk.WENT_AWAY}; the next entry connects again"]))
            with ImageServer(program, server.folder, "--workers", "1"):
                load(server.path)
                with actorimage.connect(server.path) as other:
                    version = other.install("Till", "sold ^0")
                    found = until(lambda: next((it for it in events[events.index(lost):] if it["state"] == "there"
                        and it.get("allClasses")), None))
                    same((found["isAnew"], found["figures"]["actors"]), (True, 0))
                    same(until(lambda: opened.look("method", **{"class": "Till", "selector": "sold"}).get("ok"))["version"], version)
                    card = opened.type("t sold")
                    true("connected again" in card["lines"][0], card["lines"])
                    same(opened.type("u := Till actor. u sold")["lines"], ["0"])


def a_full_server_is_told(program):
    """With 64 sessions open the page says so, and goes on once one ends."""
    with image_of(program, shop=False) as (server, image), Opened(server.path) as opened:
        others = []
        try:
            while True:
                others.append(actorimage.connect(server.path))
        except actorimage.TooMany:
            pass
        try:
            with opened.watching() as events:
                full = until(lambda: next((it for it in events if it["state"] == "full"), None))
                true("64 sessions" in full["said"], full["said"])
                while others:
                    others.pop().end()
                until(lambda: events[-1]["state"] == "there")
        finally:
            for it in others:
                it.end()


def a_checkpoint_of_somebody_is_told(program):
    """Turns and curves begin anew behind a checkpoint, classes and versions stay, and an entry that waits says that turns are others."""
    with image_of(program) as (server, image), Opened(server.path) as opened, opened.watching(view="actors", actor=0,
        table={"count": 5}) as events:
        opened.ask("/type", "", text="t := Till actor. t audit")
        until(lambda: opened.page.typed.waits_for())
        version = opened.look("method", **{"class": "Till", "selector": "sold"})["ok"]["version"]
        until(lambda: events[-1].get("figures", {}).get("actors") == 1)
        epoch = events[-1]["epoch"]
        image.checkpoint()
        event = until(lambda: next((it for it in events if it.get("epoch") not in (epoch, None) and it.get("isAnew")), None))
        same((event["points"], "classes" in event), ([], False))
        card = until(lambda: next((it for it in opened.page.typed.cards if it["seconds"] is not None), None))
        true("checkpoint" in " ".join(card["lines"]), card["lines"])
        same(opened.look("method", **{"class": "Till", "selector": "sold"})["ok"]["version"], version)
        it = until(lambda: next((it["inspected"] for it in reversed(events) if it.get("epoch") != epoch
            and it.get("inspected", {}).get("phase") == "frames"), None))
        same((it["turn"], it["ends"]), (0, []))


def sessions_are_few(program):
    """No session while no window looks, three at most beside what one types, and each is begun anew before it is old."""
    rest, longest = watch.REST, desk.LONGEST_SESSION
    try:
        watch.REST = 0.3
        with image_of(program) as (server, image), Opened(server.path) as opened:
            until(lambda: image.status().sessions == 1, "the end of the workspace's session")
            with opened.watching() as events:
                until(lambda: events[-1].get("figures"))
                until(lambda: image.status().sessions == 2, "the one session for looks")
                opened.type("Till actor")
                opened.do("define", name="A", above="Object", slots=[])
                until(lambda: image.status().sessions == 4, "three sessions")
                with opened.watching() as more:
                    until(lambda: more[-1].get("figures"))
                    until(lambda: image.status().sessions == 4, "the same three sessions")
                desk.LONGEST_SESSION = 0.1
                first = opened.page.desk.looks.since
                begun = opened.page.desk.looks.begun
                until(lambda: opened.page.desk.looks.since > first)
                same(opened.page.desk.looks.begun, begun)
                until(lambda: opened.page.desk.typed.image is None and opened.page.desk.changes.image is None, "the end of idle sessions")
                desk.LONGEST_SESSION = longest
            until(lambda: image.status().sessions == 1, "the end of the page's sessions")
            with opened.watching() as events:
                until(lambda: events[-1].get("figures"))
    finally:
        watch.REST, desk.LONGEST_SESSION = rest, longest


TRIALS = (
    entries_are_done, a_long_turn_is_waited_for, entries_that_wait_are_told, a_server_that_ends_is_told, a_full_server_is_told, a_checkpoint_of_somebody_is_told, sessions_are_few,
)
