"""Trials in a real browser of methods that a class and one above it both have: each stays what it is, whatever is shown meanwhile."""

from .try_common import SECRET, same, true, until
from .try_in_browser import choose, connected, shown, typed_over

SHOWN = "return [document.querySelector('.crumbs .C')?.textContent, document.querySelector('.crumbs .sel')?.textContent].join(' ')"
SOURCE = "const it = document.querySelector('#source'); return it.offsetParent === null ? null : it.value"


# Keeps each row that ever stands below a source.
ROWS = """
  window.rows = [];
  new MutationObserver(() => window.rows.push(...[...document.querySelectorAll('#under-body .item .code')].map(it => it.innerText)))
    .observe(document.querySelector('#under-body'), { childList: true });
"""
# What is said for a moment stays, since a busy machine may be slow.
STAYS = "window.later ??= window.setTimeout; window.setTimeout = (what, after) => (after >= 5000 ? 0 : window.later(what, after))"
# Keeps what is said for a moment.
TOASTS = """
  window.said = [];
  new MutationObserver(all => all.forEach(it => it.addedNodes.forEach(one => window.said.push(one.innerText))))
    .observe(document.querySelector('#toasts'), { childList: true });
"""


def base_and_sub(image):
    """Two classes, of which each has its own rate. Gives the version of the lower one's."""
    image.define("Base")
    image.define("Sub", "Base")
    image.install("Base", "rate ^7")
    image.install("Sub", "rate ^2")
    return image.install("Sub", "rate ^3")


def pressed(browser, text, where="header button, .toast button"):
    """Clicks the button with a text."""
    browser.wait("const it = [...document.querySelectorAll(arguments[0])].find(it => it.innerText === arguments[1] && !it.disabled); it?.click(); return Boolean(it)",
        where, text)


def removed(browser):
    browser.run(STAYS)
    pressed(browser, "Remove")
    browser.click("#dialog .main")
    browser.wait_text(".toast", "is removed")


def ticks(opened, number=4):
    """Waits until the image was asked so often again."""
    before = opened.page.watched.ticks
    until(lambda: opened.page.watched.ticks > before + number)


def undo_restores_what_was_removed(program):
    """A removal is undone behind some ticks, behind another method that is opened, and in another view; over another person's method it
    is not."""
    with shown(program) as (server, image, opened, browser):
        base_and_sub(image)

        def undone_behind(meanwhile):
            choose(browser, "Sub", "rate")
            browser.wait_text(".crumbs", f"version {image.source('Sub', 'rate').version},")
            removed(browser)
            meanwhile()
            pressed(browser, "Undo")
            until(lambda: any(it.selector == "rate" for it in image.methods("Sub")), "the method")
            same([image.source(name, "rate").source for name in ("Sub", "Base")], ["rate ^3", "rate ^7"])
            browser.wait("for (const it of document.querySelectorAll('.toast')) it.remove(); return true")

        undone_behind(lambda: None)
        undone_behind(lambda: ticks(opened, 12))
        undone_behind(lambda: choose(browser, "Base", "rate"))
        browser.wait(SHOWN.replace("].join", ", document.querySelector('#source').value].join") + " === 'Base rate rate ^7'")
        undone_behind(lambda: choose(browser, "Till", "sold"))
        undone_behind(lambda: browser.click("#tab-actors"))
        browser.click("#tab-browse")
        choose(browser, "Sub", "rate")
        browser.wait_text(".crumbs", f"version {image.source('Sub', 'rate').version},")
        removed(browser)
        theirs = image.install("Sub", "rate ^5")
        choose(browser, "Till", "sold")
        pressed(browser, "Undo")
        browser.wait_text(".toast", f"is version {theirs} now, of somebody else")
        same((image.source("Sub", "rate").source, browser.run(SOURCE)), ("rate ^5", "sold  ^sold"))
        true("conflict" not in browser.run("return document.querySelector('#main').innerHTML"), "another method is told to be replaced")


def no_list_mixes_methods(program):
    """Under Implementors and Senders no row ever stands that pairs a class of one list with a selector of another, also while what was
    asked is on its way; and a list follows the edits of others."""
    with shown(program) as (server, image, opened, browser):
        base_and_sub(image)
        image.install("Base", "twice ^self rate * 2")
        true_ones = {"Base › rate", "Sub › rate", "Base › twice", "Till › audit", "Till › sold", "Customer › shop", "Till › sell:", "NightTill › sell:"}
        browser.run(ROWS)
        mixed = lambda: set(browser.run("return window.rows")) - true_ones  # noqa: E731
        for key in ("implementors", "senders"):
            choose(browser, "Sub", "rate")
            browser.click(f"#under-{key}")
            browser.wait_text("#under-body", "Base › ")
            choose(browser, "Till", "sold")
            choose(browser, "Till", "sell:")
            browser.wait_text("#under-body", {"implementors": "NightTill › sell:", "senders": "Customer › shop"}[key])
        same(mixed(), set())
        choose(browser, "Sub", "rate")
        browser.click("#under-implementors")
        browser.wait("return document.querySelectorAll('#under-body .item').length === 2")
        # Renamed by what is typed, and then another client gives one more class the selector.
        typed_over(browser, "rate", "wage")
        browser.press("s", "ctrl")
        browser.wait("return document.querySelector('#under-body').innerText.trim() === 'Sub › wage'")
        image.install("Till", "wage ^1")
        browser.wait("return document.querySelectorAll('#under-body .item').length === 2")
        image.remove("Till", "wage")
        browser.wait("return document.querySelectorAll('#under-body .item').length === 1")
        same(mixed() - {"Sub › wage", "Till › wage"}, set())


def what_is_gone_is_brought_back(program):
    """Of a removed method that a class above also has, the list of those that are gone leads to its own versions, also on a page that is
    opened anew; nothing there removes the other one."""
    with shown(program) as (server, image, opened, browser):
        version = base_and_sub(image)
        choose(browser, "Sub", "rate")
        browser.wait_text(".crumbs", f"version {version},")
        removed(browser)
        browser.wait_text(".nothing", "Sub has no method rate now. A send of it runs that of Base.")
        pressed(browser, "Bring back", "#under-body button")
        until(lambda: image.source("Sub", "rate").class_name == "Sub")
        image.remove("Sub", "rate")
        browser.run("sessionStorage.clear(); sessionStorage.setItem('actorimage-token', arguments[0])", SECRET)
        browser.open("about:blank")
        browser.open(opened.address)
        connected(browser)
        browser.wait("const it = [...document.querySelectorAll('[role=treeitem]')].find(it => it.dataset.text === 'Sub'); it?.click(); return Boolean(it)")
        browser.wait("return document.querySelector('[role=treeitem][aria-selected=true]')?.dataset.text === 'Sub'")
        browser.click("[data-side=all]")
        browser.click("[role=option][data-text=rate][data-from=Base]")
        browser.wait(SHOWN + " === 'Base rate'")
        browser.click("[data-side=gone]")
        browser.click("[role=option][data-text=rate][data-from=Sub]")
        browser.wait(SHOWN + " === 'Sub rate'")
        browser.wait_text(".nothing", "Sub has no method rate now")
        same(browser.run("return [...document.querySelectorAll('header button')].find(it => it.innerText === 'Remove').disabled"), True)
        same(browser.run(SOURCE), None)
        ticks(opened)
        same(browser.run(SHOWN), "Sub rate")
        browser.wait("const it = document.querySelector(\"[aria-label='Bring back version \" + arguments[0] + \"']\"); it?.click(); return Boolean(it)", version - 1)
        browser.wait(SOURCE.replace("it.value", "it.value === 'rate ^2'"))
        same([image.source(name, "rate").source for name in ("Sub", "Base")], ["rate ^2", "rate ^7"])


def own_edits_are_told_once(program):
    """What one brings back, removes and undoes is told once, also where a class below it is in sight that runs the method or no longer does;
    an edit from the workspace is told to be one of this page; and one of another client to be somebody else's."""
    with shown(program) as (server, image, opened, browser):
        base_and_sub(image)
        image.define("Low", "Sub")
        browser.run(TOASTS)

        def told(*wanted):
            browser.wait("return window.said.length >= arguments[0]", len(wanted))
            ticks(opened)
            found = browser.run("const found = window.said; window.said = []; return found")
            same([any(part in it for it in found) for part in wanted], [True] * len(wanted))
            same((len(found), found), (len(wanted), found))

        choose(browser, "Sub", "rate")
        browser.click("#under-versions")
        browser.wait("return document.querySelectorAll('#under-body .sect').length === 2")
        pressed(browser, "Bring back", "#under-body button")
        told("is back, as version")
        # Low runs the method of Sub, or that of Base.
        browser.wait("const it = [...document.querySelectorAll('[role=treeitem]')].find(it => it.dataset.text === 'Low'); it?.click(); return Boolean(it)")
        browser.click("[data-side=all]")
        browser.click("[role=option][data-text=rate][data-from=Sub]")
        browser.wait(SHOWN + " === 'Sub rate'")
        removed(browser)
        browser.wait(SHOWN + " === 'Base rate'")
        told("is removed: version")
        pressed(browser, "Undo")
        browser.wait(SHOWN + " === 'Sub rate'")
        told("is back, as version")
        browser.write("#entry", "Sub >> rate  ^9\n")
        browser.wait(SOURCE.replace("it.value", "it.value === 'rate  ^9'"))
        told("made in the workspace or another window of this page")
        image.install("Sub", "rate ^10")
        browser.wait(SOURCE.replace("it.value", "it.value === 'rate ^10'"))
        told("made by somebody else")


def an_own_method_comes_and_goes(program):
    """Where a class gets its own method, that is shown in place of the inherited one; where somebody else removes it, the inherited one
    does not come under the cursor, and what is typed then is installed nowhere."""
    with shown(program) as (server, image, opened, browser):
        version = base_and_sub(image)
        choose(browser, "Sub", "rate")
        browser.wait_text(".crumbs", f"version {version},")
        browser.run("document.querySelector('#source').focus()")
        image.remove("Sub", "rate")
        browser.wait_text(".nothing", "Sub has no method rate now")
        browser.press(" + 1")
        browser.press("s", "ctrl")
        ticks(opened)
        same((browser.run(SHOWN), image.source("Base", "rate").source, image.status().edits), ("Sub rate", "rate ^7", version + 1))
        image.install("Sub", "rate ^4")
        browser.wait(SOURCE.replace("it.value", "it.value === 'rate ^4'"))
        same(browser.run(SHOWN), "Sub rate")
        # The inherited one is chosen, and another client brings the own one back.
        image.remove("Sub", "rate")
        browser.wait_text(".nothing", "Sub has no method rate now")
        browser.click("[data-side=all]")
        browser.click("[role=option][data-text=rate][data-from=Base]")
        browser.wait(SHOWN + " === 'Base rate'")
        browser.click("[data-side=own]")
        image.install("Sub", "rate ^5")
        browser.wait(SHOWN + " === 'Sub rate'")
        browser.wait(SOURCE.replace("it.value", "it.value === 'rate ^5'"))
        browser.wait("return document.querySelector('[role=option][aria-selected=true]')?.dataset.from === 'Sub'")


def what_is_typed_stays_with_its_class(program):
    """What was typed for a class is installed in that one, and shown with it again, whatever comes and goes above and below it."""
    value = "return document.querySelector('#source').value"
    with shown(program) as (server, image, opened, browser):
        base_and_sub(image)
        # Typed for Base, seen from Sub, which gets its own.
        image.remove("Sub", "rate")
        choose(browser, "Sub")
        browser.wait("return document.querySelector('[role=treeitem][aria-selected=true]')?.dataset.text === 'Sub'")
        browser.click("[data-side=all]")
        browser.click("[role=option][data-text=rate][data-from=Base]")
        browser.wait(SHOWN + " === 'Base rate'")
        typed_over(browser, "^7", "^70")
        image.install("Sub", "rate ^4")
        browser.wait_text("#own-now", "Sub runs rate of Sub now. What you typed is for Base")
        same((browser.run(SHOWN), browser.run(value)), ("Base rate", "rate ^70"))
        browser.press("0")
        browser.press("s", "ctrl")
        until(lambda: image.source("Base", "rate").source == "rate ^700")
        browser.wait(SHOWN + " === 'Sub rate'")
        same((image.source("Sub", "rate").source, browser.run(value)), ("rate ^4", "rate ^4"))
        # Typed for Sub, whose method somebody else removes.
        typed_over(browser, "^4", "^40")
        image.remove("Sub", "rate")
        browser.wait_text("#conflict", "Removed meanwhile")
        image.install("Base", "rate ^8")
        ticks(opened)
        same((browser.run(SHOWN), browser.run(value)), ("Sub rate", "rate ^40"))
        choose(browser, "Base", "rate")
        browser.wait(value + " === 'rate ^8'")
        choose(browser, "Sub", "rate")
        browser.wait(value + " === 'rate ^40'")
        browser.press("s", "ctrl")
        ticks(opened)
        same([it.selector for it in image.methods("Sub")], [])
        browser.click("#install-mine")
        until(lambda: image.source("Sub", "rate").source == "rate ^40")
        same(image.source("Base", "rate").source, "rate ^8")
        # Given up, what was typed for Base from Sub is gone there alone.
        browser.wait("return !document.querySelector('#conflict') && document.querySelector('#install').disabled")
        image.remove("Sub", "rate")
        browser.wait_text(".nothing", "Sub has no method rate now")
        browser.click("[role=option][data-text=rate][data-from=Base]")
        browser.wait(SHOWN + " === 'Base rate'")
        typed_over(browser, "^8", "^80")
        pressed(browser, "Revert")
        browser.wait(value + " === 'rate ^8'")
        same(browser.run("return document.querySelector('.chip.changed').hidden"), True)


TRIALS = (
    undo_restores_what_was_removed, own_edits_are_told_once, no_list_mixes_methods, what_is_gone_is_brought_back, an_own_method_comes_and_goes, what_is_typed_stays_with_its_class,
)
