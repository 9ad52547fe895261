"""Trials in a real browser of the keys of a source, and of entries of the workspace that wait."""

from .browser import DOWN, ESCAPE, TAB
from .try_common import same, true, until
from .try_in_browser import FIELD, choose, is_legible, shown

SOURCE = "return document.querySelector('#source').value"
ENTRY = "return document.querySelector('#entry').value"
IN_SIGHT = "const it = document.querySelector('#leaving'); return getComputedStyle(it).visibility === 'visible' && it.getBoundingClientRect().width > 0"
CARDS = "return [...document.querySelectorAll('.card')].map(it => [it.querySelector('pre').innerText, it.querySelector('.said').innerText.trim()])"


def entries_that_wait_are_shown(program):
    """What is typed behind an entry that goes on stands below it at once. Broken off, what has not begun is in the field again, before what
    was typed there, and Enter does it."""
    with shown(program) as (server, image, opened, browser):
        browser.write("#entry", "t := Till actor. t audit\n")
        browser.wait_text(".card .said.runs", "Till › ")
        for text in ("t sold", "Till >> two  ^2"):
            browser.write("#entry", text + "\n")
        browser.wait("return document.querySelectorAll('.card .said.waits').length === 2")
        same([it[0] for it in browser.run(CARDS)], ["t := Till actor. t audit", "t sold", "Till >> two  ^2"])
        is_legible(browser, "entries that wait")
        browser.write("#entry", "t two")
        browser.click("#break")
        browser.wait("return document.querySelectorAll('.card .said.broken').length === 2")
        browser.wait(ENTRY + " === arguments[0]", "t sold\n\nTill >> two  ^2\n\nt two")
        true(all("has not begun" in it[1] for it in browser.run(CARDS)[1:]), "a dropped entry does not say so")
        browser.wait("return document.querySelector('#break').hidden")
        is_legible(browser, "entries that were dropped")
        image.install("Till", "weigh: n ^false")
        browser.write("#entry", "\n")
        browser.wait("return [...document.querySelectorAll('.card .said.done')].at(-1)?.innerText.trim() === '2'")
        same(image.source("Till", "two").source, "two  ^2")
        # By the key, while nothing is marked in the field.
        image.install("Till", "weigh: n ^true")
        browser.write("#entry", "t audit\n")
        browser.wait("return document.querySelectorAll('.card .said.runs').length === 1")
        browser.write("#entry", "t sold\n")
        browser.wait("return document.querySelectorAll('.card .said.waits').length === 1")
        browser.press("c", "ctrl")
        browser.wait(ENTRY + " === 't sold'")


def tab_indents_and_escape_leaves(program):
    """Tab in a source indents the line at the cursor or all lines that are marked, and Shift+Tab takes it back, as one that can be undone.
    Behind Escape both leave; that is said while one is there."""
    with shown(program) as (server, image, opened, browser):
        image.install("Till", "sold\n^sold")
        choose(browser, "Till", "sold")
        browser.wait(SOURCE + " === 'sold\\n^sold'")
        same(browser.run(IN_SIGHT), False)
        browser.run(FIELD, 5, 5)
        browser.wait(IN_SIGHT)
        same(browser.run("return document.querySelector('#source').getAttribute('aria-describedby')"), "leaving")
        is_legible(browser, "how one leaves the source")
        browser.press(TAB)
        same((browser.run(SOURCE), browser.run("return document.activeElement.id")), ("sold\n  ^sold", "source"))
        browser.press(TAB, "shift")
        same(browser.run(SOURCE), "sold\n^sold")
        browser.run(FIELD, 0, 11)
        browser.press(TAB)
        same(browser.run(SOURCE), "  sold\n  ^sold")
        browser.press(TAB, "shift")
        same(browser.run(SOURCE), "sold\n^sold")
        browser.press("z", "ctrl")
        same(browser.run(SOURCE), "  sold\n  ^sold")
        browser.run(FIELD, 3, 3)
        browser.press(TAB)
        same(browser.run(SOURCE), "  s old\n  ^sold")
        # Escape is for the next key alone.
        browser.press(ESCAPE + DOWN + TAB)
        same(browser.run("return document.activeElement.id"), "source")
        browser.press(ESCAPE + TAB)
        browser.wait("return document.activeElement.id !== 'source'")
        behind = browser.run("return document.activeElement.compareDocumentPosition(document.querySelector('#source')) & Node.DOCUMENT_POSITION_PRECEDING")
        true(behind, "Tab leads back")
        same(browser.run(IN_SIGHT), False)
        browser.run(FIELD, 0, 0)
        browser.press(ESCAPE)
        browser.press(TAB, "shift")
        browser.wait("return document.activeElement.id !== 'source'")
        until(lambda: image.source("Till", "sold").source == "sold\n^sold")
        browser.write("#entry", ":help\n")
        browser.wait_text(".card.long .said", "behind Escape both leave the source")


TRIALS = entries_that_wait_are_shown, tab_indents_and_escape_leaves
