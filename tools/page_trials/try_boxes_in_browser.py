"""Trials in a real browser of what lies over something else or is cut, at three widths of a window."""

import time

from .boxes import LABELS, SPOILT
from .try_common import going_on, never_full, same, true, until
from .try_in_browser import choose, shown, traffic

SIZES = (1280, 800), (1440, 900), (390, 844)
# Classes of which each posts to two others.
RING = 7


def sized(browser, width, height, is_dark):
    browser.look_at(width, height, is_dark)
    browser.wait("return innerWidth === arguments[0] && document.documentElement.dataset.theme === arguments[1]", width, "dark" if is_dark else "light")


def spoilt(browser):
    """What lies over something or is cut, also a moment later: what is told meanwhile may just come."""
    for _ in range(5):
        if not (found := browser.run(SPOILT)):
            break
        time.sleep(0.3)
    return found


def nothing_is_cut(program):
    """Classes, actors and pictures, with edits, faults and a turn that goes on: no text and no bar lies over another, and none is cut."""
    with shown(program) as (server, image, opened, browser):
        till = traffic(image)
        customers = [it.actor for it in image.actors() if it.class_name == "Customer"]
        for it in customers:
            image.wait(image.sender(5).post(it, "meet:with:", till, 1_000_000))
        spins = image.new_actor("Till")
        for _ in range(4):
            image.sender(6).post(spins, "audit")
        with never_full(server.path), going_on(server.path, *[(it, "shop") for it in customers], (customers[0], "lose")):
            browser.write("#entry", "t := Till actor. t audit\n")
            browser.write("#entry", "t sold\n")
            browser.click("#tab-pictures")
            browser.wait("return document.querySelectorAll('.rights svg').length > 2 && document.querySelectorAll('.item.fault').length > 3")
            for number in range(3):
                image.install("Till", f"sold ^{number}")
            browser.wait("return document.querySelectorAll('.edits .chip').length > 4")
            for width, height in SIZES:
                sized(browser, width, height, width == 1440)
                for view in ("browse", "actors", "pictures"):
                    browser.click(f"#tab-{view}")
                    if view == "browse":
                        choose(browser, "Till", "sell:")
                    elif view == "actors":
                        browser.wait("const it = [...document.querySelectorAll('.rows .arow')].find(it => it.actor === arguments[0]); it?.click(); return Boolean(it)", spins.number)
                        browser.wait_text("#inspected", "Mailbox")
                    browser.run("scrollTo(0, 0)")
                    same((width, view, spoilt(browser)), (width, view, []))
        image.install("Till", "weigh: n ^false")


def labels_lie_over_nothing(program):
    """Who posts to whom: no name and no number lies over an arrow, a circle or another one; where arrows cross, no number does, and each
    class has its name."""
    with shown(program) as (server, image, opened, browser):
        till = traffic(image)
        auditor = next(it.actor for it in image.actors() if it.class_name == "Auditor")
        customers = [it.actor for it in image.actors() if it.class_name == "Customer"]
        for it in customers:
            image.wait(image.sender(5).post(it, "meet:with:", till, 1_000_000))
        browser.click("#tab-pictures")

        def drawn(number, is_crowded):
            browser.wait("return document.querySelectorAll('path.edge').length >= arguments[0]", number)
            for width, height in SIZES:
                sized(browser, width, height, False)
                time.sleep(0.5)
                until(lambda: browser.run("return document.querySelectorAll('path.edge').length") >= number)
                told = browser.run(LABELS, is_crowded)
                same((width, told["found"]), (width, []))
                true(told["rates"] >= min(4, number), f"only {told['rates']} arrows have a number")
                yield told["names"]

        with going_on(server.path, *[(it, "shop") for it in customers], (auditor, "doubt:", 3)):
            for names in drawn(5, False):
                true({"clients", "Customer", "Till", "Ledger", "Auditor"} <= set(names), f"there are the names {names}")
        nodes = ring(image)
        with going_on(server.path, *[(it, "go") for it in nodes]):
            for names in drawn(2 * RING, True):
                true({f"Node{number}" for number in range(RING)} <= set(names), f"there are the names {names}")


def ring(image):
    """Actors of classes that post to each other, across and back."""
    for number in range(RING):
        image.define(f"Node{number}", slots=["a", "b"])
        for source in ("a: x b: y a := x. b := y", f"take{number} ^{number}",
            f"go a post: #take{(number + 1) % RING}. b post: #take{(number + 3) % RING}"):
            image.install(f"Node{number}", source)
    nodes = [image.new_actor(f"Node{number}") for number in range(RING)]
    for number, it in enumerate(nodes):
        image.wait(image.sender(8).post(it, "a:b:", nodes[(number + 1) % RING], nodes[(number + 3) % RING]))
    return nodes


TRIALS = nothing_is_cut, labels_lie_over_nothing
