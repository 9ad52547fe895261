"""Trials of what a page is told of classes and methods, and of changes of these."""

import json
import os
import random
import threading
import time

import actorimage
from common.repository import TOP
from inspect_parts.deep import deeply
from page_parts.desk import Line
from page_parts.kept import Kept
from page_parts.places import sends_of
from second_opinion.sources import Sources
from smalltalk.checks import read_method
from smalltalk.compiler import compile_method
from smalltalk.language import BadSource

from .try_common import Opened, image_of, post, same, true, until

# Lists that are asked for while another client edits.
ENOUGH = 40


def told_by_the_image(image):
    """The classes and methods as the image itself tells them, each class apart."""
    found = {}
    for it in image.classes():
        methods = image.methods(it.name)
        found[it.name] = (it.superclass, list(it.slots), {m.selector: m.version for m in methods if m.version},
            {m.selector for m in methods if not m.version})
    return found


def kept_by_the_page(kept):
    return {it.name: (it.above, list(it.slots), dict(it.methods), set(it.row()["kernel"])) for it in kept.classes.values()}


def edits_are_kept(program):
    """What the page keeps is what the image tells, behind each kind of edit, and in another image at the same place."""
    with image_of(program) as (server, image):
        kept = Kept(Line(server.path))
        kept.catch_up(image.status().epoch)
        same(kept_by_the_page(kept), told_by_the_image(image))
        same(kept.seen, [])
        image.define("Box", slots=["a", "b"])
        image.define("Bag", "Box")
        image.define("Case", slots=["a"])
        image.reparent("NightRule", "DayRule")
        image.install("Till", "sold ^1")
        image.remove("Ledger", "sum")
        image.install("Box", "at: x put: y a := x. b := y")
        kept.catch_up(image.status().epoch)
        same(kept_by_the_page(kept), told_by_the_image(image))
        same([it.what for it in kept.seen], ["define", "define", "define", "reparent", "install", "remove", "install"])
        for name, selector in [("Till", "sold"), ("Ledger", "sum"), ("Box", "at:put:"), ("Till", "sell:")]:
            same([(it.version, it.source) for it in image.versions(name, selector)], kept.history[name, selector])
        for selector in ("priceOf:", "sell:", "isNil", "=", "none", "new", "sum"):
            same(kept.implementors(selector), image.implementors(selector))
        for name, selector in [("NightTill", "sold"), ("MoonRule", "next"), ("Till", "isNil"), ("Ledger", "sum")]:
            holder = kept.found(name, selector)
            try:
                same(holder and holder.name, image.source(name, selector).class_name)
            except actorimage.NoSuchMethod:
                same(holder, None)
        same(kept.gone("Ledger"), ["sum"])
        same(kept.slots("Bag"), ["a", "b"])
        image.checkpoint()
        anew = kept.anew
        kept.catch_up(image.status().epoch)
        same((kept.anew, kept_by_the_page(kept)), (anew, told_by_the_image(image)))


def sources():
    """Sources of the repository's examples and scripts."""
    for folder, _, names in os.walk(TOP):
        if os.path.basename(folder) in ("examples", "scripts") or folder.endswith("tests"):
            for name in sorted(names):
                if name.endswith(".jsonl"):
                    with open(os.path.join(folder, name), encoding="utf-8", errors="replace") as file:
                        for line in file:
                            try:
                                told = json.loads(line)
                            except ValueError:
                                continue
                            if isinstance(told, dict) and isinstance(told.get("source"), str):
                                yield told["source"]


def sends_stand_in_their_places(program):
    """The sends of a source in the order of its code, each where its words stand: of the repository's sources, and of 3,000 at random."""
    true(deeply(compared), "a source differs")


def compared():
    rng = random.Random(29)
    made = Sources(rng)
    at_random = []
    for number in range(3_000):
        it = made.next_to_run("A") if number % 2 else made.next("A")
        at_random.append(it)
        if number % 2:
            made.keep(it)
    tried = 0
    for source in [*sources(), *at_random]:
        data = source if isinstance(source, bytes) else source.encode(errors="replace")
        try:
            method = read_method(data)
            names = [it.text for it in method.uses + method.assigned]
            own = {it.text for it in method.variables()} | {"self", "super", "nil", "true", "false", "thisActor"}
            slots = [it for it in dict.fromkeys(names) if it[0].islower() and it not in own]
            code = compile_method(method, slots, {it: number for number, it in enumerate(names) if it[0].isupper()}).code
        except BadSource:
            continue
        text = data.decode()
        found, wanted = sends_of(text), [(it.operand, it.name == "SuperSend") for it in code if it.name in ("Send", "SuperSend")]
        same([(it.selector, it.is_super) for it in found], wanted)
        same(["".join(text[a:b] for a, b in it.words) for it in found], [it.selector for it in found])
        tried += bool(found)
    true(tried > 700, f"only {tried} sources send anything")
    same(sends_of("m ^" + "(" * 3_000), ())
    return True


def a_method_is_told(program):
    """A method with its sites, states, senders, those who post it, implementors and versions; an inherited one, the kernel's, and none."""
    # With more workers the state of a site could be that of the one that has seen less.
    with image_of(program, workers="1") as (server, image), Opened(server.path) as opened:
        ledger, till = image.new_actor("Ledger"), image.new_actor("Till")
        ledger_of = image.new_actor("Auditor")
        post(image, 1, (ledger, "auditor:", ledger_of), (till, "open:", ledger), *[(till, "sell:", 6)] * 10)
        told = opened.look("method", **{"class": "NightTill", "selector": "sold"})["ok"]
        same((told["class"], told["source"], told["sites"]), ("Till", "sold  ^sold", []))
        told = opened.look("method", **{"class": "Till", "selector": "sell:"})["ok"]
        kinds = {it["selector"]: it["kind"] for it in told["sites"]}
        same((kinds["priceOf:"], kinds["take:"], kinds["post:with:with:"]), ("mega", "mono", "post"))
        of_image = [(it.selector, [it.sends, it.site, it.lookup_cache, it.walk]) for it in image.stats("Till", "sell:")]
        same([(it["selector"], it["counts"]) for it in told["sites"]], of_image)
        for it in told["sites"]:
            same("".join(told["source"][a:b] for a, b in it["words"]), it["selector"])
        same(opened.look("method", **{"class": "Till", "selector": "isNil"})["ok"]["kernel"], True)
        same(opened.look("method", **{"class": "Till", "selector": "none"})["ok"]["gone"], False)
        senders = opened.look("senders", selector="priceOf:")["ok"]
        same([(it["class"], it["selector"]) for it in senders], [(it[0], it[1]) for it in image.senders("priceOf:")])
        same(next(it["kinds"] for it in senders if it["class"] == "Till"), ["mega"])
        posters = opened.look("senders", selector="add:from:")["ok"]
        same([(it["class"], it["selector"], it["posts"]) for it in posters], [("Till", "sell:", True)])
        same([it["class"] for it in opened.look("implementors", selector="sell:")["ok"]], ["Till", "NightTill"])
        with opened.watching(view="browse", **{"class": "Till", "method": ["Till", "sell:"]}) as events:
            until(lambda: any("sites" in it for it in events))
            event = next(it for it in events if "sites" in it)
            same((event["sites"]["version"], event["sites"]["sites"]), (told["version"], told["sites"]))
            until(lambda: any(it.get("heat", {}).get("Till") for it in events))
            until(lambda: any(len(it.get("shapes", {}).get("Till sell:", [])) == len(of_image) for it in events))
            opened.look("see", window=events[0]["window"], view={"view": "browse", "class": "NightTill"})
            until(lambda: {"NightTill sell:", "Till sell:"} <= set(events[-1].get("shapes", {})), "the shapes of inherited methods")
            version = image.install("Till", "sold ^sold + 0")
            edit = until(lambda: next((row for it in events for row in it.get("edits", []) if row["version"] == version), None))
            same((edit["what"], edit["class_name"], edit["selector"]), ("install", "Till", "sold"))
            row = until(lambda: next((row for it in events[1:] for row in it.get("classes", []) if row["name"] == "Till"
                and ["sold", version] in [list(m) for m in row["methods"]]), None))
            same(row["above"], "Object")


def lists_are_of_one_version(program):
    """Who has a selector, who sends it, and the versions of a method, asked while another client edits: each list is that of the version
    of the classes that it names."""
    with image_of(program, shop=False) as (server, image), Opened(server.path) as opened:
        for name in ("Odd", "Even"):
            image.define(name)
        first, told_of, ends = image.install("Even", "m ^self m") + 1, [], []

        # Behind an even number of edits Even alone has m, which sends it; then both; then Odd alone; then both; and so on.
        def edit():
            with actorimage.connect(server.path) as other:
                while len(told_of) < ENOUGH and other.status().edits_left > 4:
                    for name, is_removed in (("Odd", False), ("Even", True), ("Even", False), ("Odd", True)):
                        other.remove(name, "m") if is_removed else other.install(name, "m ^self m")
                        time.sleep(0.002)
            ends.append(True)

        def there(version):
            return [["Even"], ["Odd", "Even"], ["Odd"], ["Odd", "Even"]][(version - first + 1) % 4]

        thread = threading.Thread(target=edit)
        thread.start()
        while not ends:
            for what in ("implementors", "senders"):
                told = opened.look(what, selector="m")
                if "ok" in told:
                    same((what, told["edits"], sorted(it["class"] for it in told["ok"])), (what, told["edits"], sorted(there(told["edits"]))))
                    told_of.append(told["edits"])
            told = opened.look("method", **{"class": "Odd", "selector": "m", "own": True})["ok"]
            same((told["edits"], told.get("version", 0)), (told["edits"], told["versions"][-1]["version"] if "Odd" in there(told["edits"]) else 0))
        thread.join()
        true(len(told_of) >= ENOUGH and len(set(told_of)) > 9, f"{len(told_of)} lists were told, of {len(set(told_of))} versions")


def errors_have_their_places(program):
    """A refused source is marked where it is wrong, with the workspace's advice; other refusals are said; nothing is installed."""
    with image_of(program) as (server, image), Opened(server.path) as opened:
        before = image.status().edits

        def tried(source, name="Till", version=0):
            return opened.do("install", **{"class": name, "source": source, "seen": {"selector": "sold", "version": version}})

        source = "round\n  | round |\n  ^rund"
        told = tried(source)
        same((told["error"], source[slice(*told["place"])]), ("BadSource", "rund"))
        true(told["said"].startswith("UnknownName: ") and "did you mean round?" in told["said"], told["said"])
        for source, at in [("bad ^(3 +", 9), ("bad ^3 @ 4", 7), ("x: self ^1", 3), ("m sold := 1. ^[3]", 14), ("m ^é", 3)]:
            told = tried(source)
            same((source, told["error"], told["place"][0]), (source, "BadSource", at))
        same(tried("isNil ^1", "Object")["error"], "KernelMethod")
        true("Till" in tried("m ^1", "Tell")["said"], "the nearest class is not named")
        told = tried("m ^'" + "\n" * 4_090)
        same((told["error"], "8,192" in told["said"]), ("TooLong", True))
        same(opened.look("method", **{"class": "Till", "selector": "sold"})["ok"]["source"], "sold  ^sold")
        same(image.status().edits, before)
        told = tried("foo ^self quux")
        same((told["ok"]["version"], told["unknown"], told["selector"]), (before + 1, ["quux"], "foo"))
        told = tried("bar: x ^x post: #nobodyHasIt")
        same(told["unknown"], ["nobodyHasIt"])


def nobody_is_overwritten(program):
    """An edit of another person between is told with its text, in each way in which one can come; only a further word overwrites it."""
    with image_of(program) as (server, image), Opened(server.path) as opened:
        def installed(source, selector, version, name="Till"):
            return opened.do("install", **{"class": name, "source": source, "seen": {"selector": selector, "version": version}})

        version = opened.look("method", **{"class": "Till", "selector": "sold"})["ok"]["version"]
        theirs = image.install("Till", "sold ^7")
        told = installed("sold ^8", "sold", version)
        same((told["error"], told["theirs"]), ("Stale", {"source": "sold ^7", "version": theirs, "isOurs": False}))
        same(image.source("Till", "sold").source, "sold ^7")
        mine = installed("sold ^8", "sold", theirs)["ok"]["version"]
        same((image.source("Till", "sold").source, mine), ("sold ^8", theirs + 1))
        image.remove("Till", "sold")
        same(installed("sold ^9", "sold", mine)["theirs"], {"source": None, "version": 0, "isOurs": False})
        same(installed("sold ^9", "sold", 0)["selector"], "sold")
        # A pattern that was changed takes the place of no method that is there.
        there = image.source("Till", "weigh:").version
        same(installed("weigh: n ^false", "sold", 5)["theirs"]["version"], there)
        same(installed("brandNew ^1", "sold", 5)["selector"], "brandNew")
        seen = opened.look("method", **{"class": "Till", "selector": "audit"})["ok"]["version"]
        theirs = image.install("Till", "audit ^1")
        told = opened.do("remove", **{"class": "Till", "selector": "audit", "seen": seen})
        same((told["error"], told["theirs"]["version"]), ("Stale", theirs))
        same(image.source("Till", "audit").source, "audit ^1")
        same("ok" in opened.do("remove", **{"class": "Till", "selector": "audit", "seen": theirs}), True)
        told = opened.look("method", **{"class": "Till", "selector": "audit"})["ok"]
        same((told["gone"], [it["source"] for it in told["versions"]][-2:]), (True, ["audit ^1", None]))
        same(opened.look("gone", **{"class": "Till"})["ok"], ["audit"])


def classes_are_made_and_moved(program):
    """Classes are defined and put under others; what is refused says why."""
    with image_of(program) as (server, image), Opened(server.path) as opened:
        same("ok" in opened.do("define", name="Van", above="Object", slots=["load"]), True)
        same("there is a class Van already" in opened.do("define", name="Van", above="Object", slots=[])["said"], True)
        same(opened.do("define", name="van", above="Object", slots=[])["error"], "BadName")
        same("did you mean Till?" in opened.do("define", name="Tent", above="Tilll", slots=[])["said"], True)
        same("ok" in opened.do("reparent", **{"class": "NightRule", "above": "StepRule"}), True)
        same(opened.do("reparent", **{"class": "Rule", "above": "StepRule"})["error"], "Cycle")
        same(opened.do("reparent", **{"class": "Rule", "above": "Till"})["error"], "SlotsDiffer")
        found = {it.name: it.superclass for it in image.classes()}
        same((found["Van"], found["NightRule"], found["Rule"]), ("Object", "StepRule", "Object"))
        same(opened.do("actor", **{"class": "Van"})["ok"], {"actor": 0})
        same(opened.do("close", actor=0)["ok"], {})
        same(opened.do("save")["error"], "BadArguments")


TRIALS = (
    edits_are_kept, sends_stand_in_their_places, a_method_is_told, lists_are_of_one_version, errors_have_their_places, nobody_is_overwritten, classes_are_made_and_moved,
)
