"""The watch: while a window looks, the image is asked once a second how it does, and each window is told what it shows of that."""

import contextlib
import threading
import time

import actorimage

from .desk import Lost
from .faults import Faults
from .figures import Figures
from .inspecting import Ends, Inspected
from .kept import Kept
from .methods import running, sites_of
from .pictures import Boxes, Posts
from .rows import PAGE, Rows
from .states import STATES, cells
from .stats import Stats

# Seconds of a tick, and those after which the sessions end where no window looks.
TICK, REST = 1.0, 5.0
# Beyond so many actors all are asked each tenth tick alone, and those in sight each tick.
MANY, TENTH = 10_000, 10
# Rows of a class in sight whose sites are asked for often, and cells of the map.
MOST_LISTED, MOST_CELLS = 120, 4_000


def cleaned(view):
    """What a window shows, as far as it can be shown. A question that is none stops no tick."""
    found = {"view": str(view.get("view", "browse")), "cells": int(view.get("cells") or 0)}
    if view.get("class"):
        found["class"] = str(view["class"])
    if view.get("method"):
        name, selector = view["method"]
        found["method"] = str(name), str(selector)
    if view.get("actor") is not None:
        found["actor"], found["object"] = int(view["actor"]), int(view.get("object") or 0)
    if view.get("table"):
        it = view["table"]
        found["table"] = {"first": int(it.get("first") or 0), "count": int(it.get("count") or 0), "down": bool(it.get("down"))}
        found["table"].update((key, str(it.get(key) or "")) for key in ("sort", "text", "only"))
    return found


class Watch:
    """What is known of the image now. `state` is `there`, `lost` or `full`, and `said` why. `ticks` counts what was told."""

    def __init__(self, desk, typed_of):
        self.line = desk.looks
        self.desk, self.kept = desk, Kept(self.line)
        self.rows, self.figures, self.stats = Rows(), Figures(desk.path), Stats(self.line, self.kept)
        self.boxes, self.posts, self.ends, self.faults = Boxes(), Posts(), Ends(self.line), Faults(self.line)
        self.moved, self.views, self.ticks = threading.Condition(threading.RLock()), {}, 0
        self.state, self.said, self.epoch, self.as_of, self.next = "lost", "not connected yet", None, None, 0
        self.is_running = False
        self.typed = typed_of(self.nudge)

    # ---- the image

    def tick(self):
        """Asks how the image does."""
        status = self.line.ask({"cmd": "status"})
        with self.moved:
            if status["epoch"] != self.epoch:
                self.begin(status["epoch"])
        self.kept.catch_up(status["epoch"])
        is_whole = self.ticks % TENTH == 0 or status["actors"] <= MANY or len(self.rows.all) > status["actors"]
        if is_whole or not self.rows.all:
            new = self.rows.ask(self.line)
            with self.moved:
                self.rows.take(new, time.monotonic())
                self.boxes.take(self.rows)
        else:
            self.see_some()
        told = self.faults.ask(status)
        with self.moved:
            if told is not None:
                self.faults.take(told, self.rows, time.time())
            self.figures.take(status, self.rows.turns, self.rows.waiting, time.monotonic())
            self.state, self.said, self.as_of = "there", "", time.time()
        self.look_at_methods()

    def begin(self, epoch):
        """Behind a checkpoint or a restart turns have other numbers, so nothing of before goes on."""
        self.epoch = epoch
        for it in (self.rows, self.figures, self.stats, self.boxes, self.posts, self.faults):
            it.clear()

    def see_some(self):
        """Of very many actors those that windows show."""
        for view in list(self.views.values()):
            numbers = [it["actor"] for it in self.rows.part(view["table"])["rows"]] if view.get("table") else []
            if numbers and max(numbers) - min(numbers) < PAGE:
                first = min(numbers)
                told = self.rows.ask(self.line, first, max(numbers) - first + 1)
                with self.moved:
                    self.rows.take_some(first, told)

    def look_at_methods(self):
        """The sites of methods, as far as a window shows any."""
        views = list(self.views.values())
        if any(it.get("view") == "browse" for it in views):
            listed = [method for it in views if it.get("class") for method in self.listed(it["class"])]
            self.stats.round(listed, self.ticks)
            self.stats.ask([tuple(it["method"]) for it in views if it.get("method")], self.ticks)
        if any(it.get("view") == "pictures" for it in views):
            self.posts.take(self.kept, self.stats, self.rows, time.monotonic())

    def listed(self, name):
        """The methods of a class, its own first and then those that it inherits, as far as they are shown with their sites."""
        return [(it.name, selector) for it in self.kept.chain(name) for selector in list(it.methods)][:MOST_LISTED]

    # ---- windows

    def see(self, number, view):
        """What a window shows from now on."""
        with self.moved:
            if number in self.views:
                self.views[number] = cleaned(view)

    def stream(self, view, about):
        """The events for a window, until it is closed. The first says what the page is about."""
        number = self.enter(view)
        yield {"window": number, "state": self.state, "said": self.said, "asOf": self.as_of, "epoch": self.epoch, "about": about}
        seen = {"window": number, "ticks": -1, "typed": -1}
        try:
            while True:
                with self.moved:
                    news = lambda: (self.ticks, self.typed.version) != (seen["ticks"], seen["typed"])  # noqa: E731
                    self.moved.wait_for(news, 5)
                yield self.event(self.views[number], seen)
        finally:
            with self.moved:
                self.views.pop(number, None)

    def enter(self, view):
        with self.moved:
            self.next += 1
            self.views[self.next] = cleaned(view)
            if not self.is_running:
                self.is_running = True
                threading.Thread(target=self.go_on, daemon=True).start()
            return self.next

    def nudge(self):
        """Something was typed, or answered."""
        with self.moved:
            self.moved.notify_all()

    def go_on(self):
        """Ticks while there are windows, and a little longer: one that is loaded anew is there again at once."""
        last = time.monotonic()
        while True:
            began = time.monotonic()
            try:
                self.tick()
            except Lost as lost:
                self.state, self.said = "full" if lost.is_full else "lost", lost.sentence
            except Exception as error:  # The next tick is tried all the same.
                self.state, self.said = "lost", f"{type(error).__name__}: {error}"
            self.desk.tidy()
            with self.moved:
                self.ticks += 1
                self.moved.notify_all()
                last = began if self.views else last
                if began - last > REST and self.typed.waits_for() is None:
                    self.is_running = False
                    self.desk.rest()
                    return
            time.sleep(max(0.05, TICK - (time.monotonic() - began)))

    # ---- what a window is told

    def event(self, view, seen):
        """What is new for a window since its last event."""
        with self.moved, self.kept.lock:
            is_tick, seen["ticks"] = seen["ticks"] != self.ticks, self.ticks
            told = {"window": seen["window"], "state": self.state, "said": self.said, "asOf": self.as_of, "epoch": self.epoch}
            told.update(self.told_of_typed(seen))
            if is_tick and self.state == "there":
                told.update(self.told_of_image(seen))
                told.update(self.table(view))
        if is_tick and self.state == "there":
            with contextlib.suppress(Lost, actorimage.ActorImageError):
                told.update(self.told_of_view(view, seen, told.get("isAnew") or "allClasses" in told))
        return told

    def told_of_typed(self, seen):
        """The cards that changed."""
        before, seen["typed"] = seen["typed"], self.typed.version
        if before == seen["typed"]:
            return {}
        cards = [it for it in self.typed.cards if it.get("version", 0) > before]
        return {"cards": cards, "first": self.typed.cards[0]["number"] if self.typed.cards else 0, "names": self.typed.names()}

    def told_of_image(self, seen):
        told = {"figures": self.figures.last, "waitsFor": self.running_of(self.typed.waits_for())}
        points = list(self.figures.points)
        told["points"] = points if seen.get("epoch") != self.epoch else points[-1:]
        told["isAnew"], seen["epoch"] = seen.get("epoch") != self.epoch, self.epoch
        told["edits"] = [vars(it) for it in self.kept.seen if it.version > seen.get("edits", 0)]
        if seen.get("anew") != self.kept.anew:
            told["classes"], told["allClasses"] = [it.row() for it in self.kept.classes.values()], True
        elif seen["edits"] != self.kept.version:
            names = {it.class_name for it in self.kept.seen if it.version > seen["edits"]}
            told["classes"] = [self.kept.classes[it].row() for it in names if it in self.kept.classes]
        seen["anew"], seen["edits"] = self.kept.anew, self.kept.version
        told["version"] = self.kept.version
        if self.faults.count is not None and seen.get("faults") != self.faults.version:
            told["faults"], seen["faults"] = self.faults.told(self.rows), self.faults.version
        return told

    def table(self, view):
        """The part of the actors that a window shows, with their map."""
        if not view.get("table"):
            return {}
        letters, each = cells(self.rows.codes, min(MOST_CELLS, int(view.get("cells", 0)) or MOST_CELLS))
        counts = dict.fromkeys(STATES, 0)
        for code, number in self.rows.counts().items():
            counts[STATES[code // 4]] += number
        return {"table": self.rows.part(view["table"]), "map": letters, "each": each, "counts": counts}

    def told_of_view(self, view, seen, told_anew):
        """What is asked of the image for this window alone."""
        told = {}
        if view.get("view") == "browse":
            heat, before = self.stats.heat(), seen.get("heat", {})
            told["heat"] = {name: sends for name, sends in heat.items() if before.get(name) != sends or told_anew}
            seen["heat"] = heat
            if view.get("class"):
                told["shapes"] = self.stats.shapes(self.listed(view["class"]))
            if view.get("method"):
                told.update(self.sites(tuple(view["method"])))
        if view.get("view") == "actors" and view.get("actor") is not None:
            told["inspected"] = self.inspected(view["actor"], view.get("object", 0))
        if view.get("view") == "pictures":
            told["boxes"], told["graph"] = self.boxes.shown(self.rows), {"nodes": self.posts.nodes, "edges": self.posts.edges}
            if self.faults.count is None:
                told["faults"] = self.faults.told(self.rows)
        return told

    def sites(self, method):
        """The sites of the method in sight, or that it is gone; nothing until the image told of them."""
        with self.kept.lock:
            source, known = self.kept.source(*method), self.stats.known(method)
        told = {"class": method[0], "selector": method[1], "version": source[1] if source else 0}
        if not source:
            return {"sites": told}
        if known is None:
            return {}
        return {"sites": {**told, "sites": sites_of(source[0], known), "running": len(running(self.rows, *method))}}

    def inspected(self, number, place):
        """The actor in sight; nothing but its number where there is none."""
        try:
            told = self.line.ask({"cmd": "inspect", "actor": number})
        except actorimage.Refused:
            return {"actor": number, "isGone": True}
        row = self.rows.ask(self.line, number, 1)
        found = Inspected(told, number, self.kept, self.rows).page(place)
        return {**found, "ends": self.ends.of(number, row[0], self.epoch) if row else []}

    def running_of(self, waits):
        """What the actor runs for which an entry waits."""
        if waits is None or waits["actor"] >= len(self.rows.all):
            return waits
        running = self.rows.all[waits["actor"]]["running"]
        return {**waits, "runs": f"{running['class']} › {running['selector']}" if running else ""}
