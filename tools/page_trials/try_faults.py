"""Trials of what a page is told of turns that ended with a fault: which there are, as they come, and where one failed."""

import actorimage
from page_parts.faults import Faults
from page_parts.rows import Rows

from .try_common import Opened, image_of, post, same, true, until

PRICE = ["of: amount\n  \"100% - not less\"\n  | cost |\n  cost := amount * rate // 100.\n  ^cost", "quote: n ^(self of: n) + 1",
    "deep: n ^n = 0 ifTrue: [self foo: n bar: 2] ifFalse: [self deep: n - 1]", "test: x  ^(self rate: x) ifTrue: [1] ifFalse: [2]",
    "rate: x ^x", "on ^true", "spin [self on] whileTrue: [nil]. ^7"]
DEAR = ["of: amount ^super of: amount", "rate: x ^super zork: x"]
# What an image keeps, as docs/LIMITS.md has it.
NEWEST = 64


def prices(image):
    """Two classes whose methods fail."""
    image.define("Price", slots=["rate"])
    image.define("Dear", "Price", slots=["by"])
    for name, sources in (("Price", PRICE), ("Dear", DEAR)):
        for source in sources:
            image.install(name, source)
    return image.new_actor("Price"), image.new_actor("Dear")


def faults_are_told_as_they_come(program):
    """Each fault once, the newest first, also of an actor that goes on with its next turn; none of before a checkpoint."""
    with image_of(program, shop=False) as (server, image), Opened(server.path) as opened:
        price, dear = prices(image)
        post(image, 1, (price, "of:", 50))
        with opened.watching(view="browse") as events:
            def told():
                return next((it["faults"] for it in reversed(events) if "faults" in it), {"count": None, "all": []})

            def listed():
                return [(it["actor"], it["class"], it["turn"], it["fault"]) for it in told()["all"]]

            until(lambda: told()["count"] == 1)
            same((listed(), told()["all"][0]["at"]), ([(0, "Price", 1, "badArgument")], None))
            sender = image.sender(2)
            sender.post(price, "deep:", 3)
            spins = sender.post(price, "spin")
            until(lambda: told()["count"] == 2)
            same(listed(), [(0, "Price", 2, "notUnderstood"), (0, "Price", 1, "badArgument")])
            true(told()["all"][0]["at"], "when it came is not told")
            until(lambda: next(it for it in image.actors() if it.actor == price).phase == "frames")
            image.install("Price", "on ^false")
            same(image.wait(spins), 7)
            for number in (50, 20):
                post(image, 3, *[(dear, "zork")] * number)
            until(lambda: told()["count"] == 72)
            newest = listed()
            same((newest[0], len(set(newest)), len(newest) >= NEWEST), ((1, "Dear", 70, "notUnderstood"), len(newest), True))
            same(opened.look("faults")["ok"], told())
            # A window that comes later is told the same.
            with opened.watching(view="actors", table={"count": 5}) as more:
                same(until(lambda: next((it["faults"] for it in more if "faults" in it), None)), told())
            image.checkpoint()
            until(lambda: told()["count"] == 0)
            same(listed(), [])
            post(image, 4, (dear, "of:", 1))
            until(lambda: told()["count"] == 1)
            same(listed(), [(1, "Dear", 1, "badArgument")])


def where_a_turn_failed_is_told(program):
    """The message that failed, each frame with its source, the send at which it stood, and its variables; and why there is none."""
    with image_of(program, shop=False) as (server, image), Opened(server.path) as opened, opened.watching() as events:
        price, dear = prices(image)
        post(image, 1, (price, "quote:", 50), (price, "deep:", 4), (price, "test:", 7), (price, "zork:with:", 1, actorimage.Symbol("a:")),
            (price, "rate:", 1), (dear, "rate:", 2), (dear, "quote:", 6))
        until(lambda: opened.look("faults")["ok"]["count"] == 6)

        def failed(actor, turn, **more):
            return opened.look("fault", actor=actor, turn=turn, **more)

        def place(frame):
            return "".join(frame["source"][a:b] for a, b in frame["words"])

        it = failed(0, 1)["ok"]
        same((it["fault"], it["failed"], it["class"], "got an argument" in it["means"]), ("badArgument", "50 * nil", "Price", True))
        same([(each["class"], each["selector"], place(each), each["waitsFor"]) for each in it["frames"]],
            [("Price", "quote:", "of:", "of:"), ("Price", "of:", "*", "")])
        frame = it["frames"][1]
        same([(each["name"], each["value"]["text"]) for each in frame["slots"] + frame["variables"]],
            [("rate", "nil"), ("amount", "50"), ("cost", "nil")])
        same((frame["isNow"], image.source("Price", "of:").version, frame["receiver"]), (True, frame["version"], {"text": "itself", "local": 0}))
        it = failed(0, 2)["ok"]
        same((it["failed"], len(it["frames"]), place(it["frames"][-1])), ("a Price foo: 0 bar: 2", 5, "foo:bar:"))
        same({place(each) for each in it["frames"][:-1]}, {"deep:"})
        it = failed(0, 3)["ok"]
        same((it["fault"], it["failed"], place(it["frames"][-1])), ("mustBeBoolean", "7 was tested", "rate:"))
        it = failed(0, 4)["ok"]
        same((it["fault"], it["failed"], it["frames"]), ("notUnderstood", "a Price zork: 1 with: #a:", []))
        it = failed(1, 1)["ok"]
        same((it["failed"], [each["class"] for each in it["frames"]]), ("super zork: 2", ["Dear"]))
        it = failed(1, 2)["ok"]
        same([(each["class"], each["selector"], each["of"], place(each)) for each in it["frames"]],
            [("Price", "quote:", "Dear", "of:"), ("Dear", "of:", "Dear", "of:"), ("Price", "of:", "Dear", "*")])
        same([each["name"] for each in it["frames"][2]["slots"]], ["rate", "by"])
        # A method that was replaced since is still told as it was.
        image.install("Price", "of: n ^n")
        it = failed(0, 1)["ok"]["frames"][1]
        same((it["isNow"], it["source"]), (False, PRICE[0]))
        # What is no fault of now: another step has that number, it answered, it has not ended, and it is of before.
        newest = opened.look("faults")["ok"]["all"][0]
        epoch = events[-1]["epoch"]
        same("ok" in failed(newest["actor"], newest["turn"], step=newest["step"], epoch=epoch), True)
        same([failed(newest["actor"], newest["turn"], step=newest["step"] + 1)["error"], failed(0, 5)["error"], failed(0, 99)["error"],
            failed(99, 1)["error"], failed(0, 1, epoch="another")["error"]], ["Expired", "Expired", "Pending", "UnknownActor", "Expired"])
        for number in (NEWEST // 2, NEWEST // 2):
            post(image, 2, *[(dear, "zork")] * number)
        it = failed(0, 1)["ok"]
        same((it["fault"], it["frames"], "64" in it["why"]), ("badArgument", [], True))


class Told:
    """A line whose image has had these faults."""

    def __init__(self):
        self.all, self.base, self.asked, self.steps = [], 0, 0, 0

    def fail(self, number):
        for _ in range(number):
            self.steps += 10
            self.all.append({"actor": 0, "fault": "overflow", "step": self.steps, "turn": len(self.all) + 1})

    def ask(self, command):
        self.asked += 1
        kept = self.all[-NEWEST:]
        from_ = max(command["after"], self.base, kept[0]["step"] - 1 if len(self.all) > NEWEST else 0)
        return {"faults": [it for it in kept if it["step"] > from_], "from": from_, "steps": self.steps}


def faults_are_asked_for_once(program):
    """The image is asked where its count is another one; what came while many did is lost; an older image begins anew; and one that keeps
    none is asked nothing."""
    line, rows = Told(), Rows()
    faults = Faults(line)

    def tick(count):
        told = faults.ask({"faults": count} if count is not None else {})
        if told is not None:
            faults.take(told, rows, 1.0)

    tick(None)
    same((line.asked, faults.told(rows)), (0, {"count": None, "names": {}, "all": []}))
    tick(0)
    tick(0)
    same((line.asked, faults.told(rows)["count"]), (1, 0))
    for number in range(10):
        line.fail(NEWEST // 2)
        tick(len(line.all))
        same([it["turn"] for it in faults.all], list(range(max(1, len(line.all) - NEWEST + 1), len(line.all) + 1)))
    same((line.asked, faults.count), (11, 5 * NEWEST))
    line.fail(3 * NEWEST)
    tick(len(line.all))
    same([it["turn"] for it in faults.all], list(range(len(line.all) - NEWEST + 1, len(line.all) + 1)))
    line.all, line.steps = [], 0
    line.fail(2)
    tick(2)
    same([it["turn"] for it in faults.all], [1, 2])
    same(faults.told(rows)["names"], {"overflow": 2})


TRIALS = faults_are_told_as_they_come, where_a_turn_failed_is_told, faults_are_asked_for_once
