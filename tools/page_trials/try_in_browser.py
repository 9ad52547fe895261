"""Trials in a real browser, as a person does it: each view, edits and their conflicts, errors, messages, keys alone."""

import contextlib

from .browser import DOWN, END, ENTER, ESCAPE, LEFT, RIGHT, TAB, Browser
from .seen_well import NAMELESS, PALE
from .try_common import Opened, image_of, post, same, true, until

SELECTED = "return document.querySelector('[role=option][aria-selected=true]')?.dataset.text === arguments[0]"
FIELD = "const it = document.querySelector('#source'); it.focus(); it.setSelectionRange(arguments[0] ?? it.value.length, arguments[1] ?? it.value.length)"


@contextlib.contextmanager
def shown(program, *options, width=1280, height=900, is_dark=False, workers="2", file=None, may_say=()):
    """An image, a page on it, and a browser that has opened it. What its console says besides is wrong."""
    with image_of(program, *options, workers=workers, file=file) as (server, image), Opened(server.path) as opened, Browser(width, height,
        is_dark) as browser:
        browser.open(opened.address)
        connected(browser)
        yield server, image, opened, browser
        quiet(browser, may_say)


def connected(browser):
    browser.wait("return document.querySelector('#lamp').className === 'lamp there' && document.querySelectorAll('[role=treeitem], .rows .arow, .chart, svg').length > 0")


def quiet(browser, may_say=()):
    same([it for it in browser.log() if not any(part in it for part in may_say)], [])


def choose(browser, name, selector=None):
    """Goes to a class, and to a method of it, with the mouse."""
    browser.wait("const it = [...document.querySelectorAll('[role=treeitem]')].find(it => it.dataset.text === arguments[0]); it?.scrollIntoView(); it?.click(); return Boolean(it)", name)
    if selector:
        browser.wait("const it = [...document.querySelectorAll('[role=option]')].find(it => it.dataset.text === arguments[0]); it?.click(); return Boolean(it)", selector)
        browser.wait("return document.querySelector('.crumbs .sel')?.textContent === arguments[0] && document.querySelector('#source').offsetParent !== null", selector)


def typed_over(browser, old, new):
    """Types over a part of the source, as a person who has marked it."""
    begin = browser.run("return document.querySelector('#source').value.indexOf(arguments[0])", old)
    true(begin >= 0, f"{old} is not in the source")
    browser.run(FIELD, begin, begin + len(old))
    browser.press(new)


def is_legible(browser, where):
    same((where, browser.run(PALE)), (where, []))
    same((where, browser.run(NAMELESS)), (where, []))


def each_view_is_shown(program):
    """Browse with all that stands below a source, the actors and the pictures; light and dark, with contrast, roles and names."""
    # With more workers the state of a site could be that of the one that has seen less.
    with shown(program, workers="1") as (server, image, opened, browser):
        traffic(image)
        for is_dark in (False, True):
            browser.look_at(1280, 900, is_dark)
            browser.wait("return document.documentElement.dataset.theme === arguments[0]", "dark" if is_dark else "light")
            browser.click("#tab-browse")
            choose(browser, "Till", "sell:")
            browser.wait("return document.querySelectorAll('.source .site.mega').length && document.querySelectorAll('.source .site.post').length")
            browser.wait("return document.querySelectorAll('.shapes i.mega').length > 0 && [...document.querySelectorAll('.heat i')].some(it => it.clientWidth > 0)")
            for key, text in [("sites", "priceOf:"), ("versions", "runs now"), ("senders", "Customer › shop"),
                ("implementors", "NightTill › sell:"), ("running", "No actor runs it")]:
                browser.click(f"#under-{key}")
                browser.wait_text("#under-body", text)
                is_legible(browser, f"{key}, dark {is_dark}")
            browser.click("#tab-actors")
            browser.wait_text(".rows .arow", "Customer")
            browser.run("[...document.querySelectorAll('.rows .arow')].find(it => it.innerText.includes('Till')).click()")
            browser.wait_text("#inspected", "ledger")
            browser.wait_text("#inspected", "How the newest turns ended")
            is_legible(browser, f"actors, dark {is_dark}")
            browser.click("#tab-pictures")
            post(image, 1, (image.actors()[3].actor, "shop"))
            browser.wait_text(".legend", "turns")
            browser.wait("return document.querySelectorAll('path').length > 4")
            is_legible(browser, f"pictures, dark {is_dark}")
            browser.press("k", "ctrl")
            browser.press("sell")
            browser.wait_text("#found .item", "NightTill › sell:")
            is_legible(browser, f"find, dark {is_dark}")
            browser.press(ESCAPE)


def traffic(image):
    """Some actors of the shop that have done something, one of them with a fault."""
    auditor, ledger, till = (image.new_actor(it) for it in ("Auditor", "Ledger", "Till"))
    customers = [image.new_actor("Customer") for _ in range(3)]
    post(image, 1, (ledger, "auditor:", auditor), (till, "open:", ledger), *[(it, "meet:with:", till, 9) for it in customers],
        *[(it, "shop") for it in customers * 3], (customers[0], "lose"))
    return till


def an_edit_is_made(program):
    """A method is edited while a turn runs it, which then ends; versions bring the old one back."""
    with shown(program) as (server, image, opened, browser):
        browser.write("#entry", "t := Till actor. t audit\n")
        browser.wait_text(".card", "audit")
        browser.wait_text(".card .said", "Till › ")
        choose(browser, "Till", "weigh:")
        # A mouse on a word is one on the field that lies over it.
        at_word = "const it = document.querySelector('.source .row').getBoundingClientRect(); return document.elementFromPoint(it.x + 40, it.y + it.height / 2)?.id"
        same(browser.run(at_word), "source")
        typed_over(browser, "true", "n < 5")
        browser.wait("return !document.querySelector('#install').disabled")
        browser.click("#install")
        browser.wait_text(".toast", "Till › weigh: is version")
        same(image.source("Till", "weigh:").source, "weigh: n  ^n < 5")
        browser.wait("return [...document.querySelectorAll('.card .said.done')].some(it => /^\\d+$/.test(it.innerText.trim()))")
        browser.click("#under-versions")
        browser.wait("return document.querySelectorAll('#under-body .sect').length === 2")
        same(len(browser.texts("#under-body .diff .new")) > 0, True)
        browser.click("#under-body .sect:nth-child(2) button")
        until(lambda: image.source("Till", "weigh:").source == "weigh: n  ^true")
        browser.wait("return document.querySelector('#source').value === arguments[0]", "weigh: n  ^true")


def an_edit_of_another_is_seen(program):
    """While one types, somebody else installs the method: nothing is overwritten, both texts are shown, and either can be taken."""
    with shown(program) as (server, image, opened, browser):
        choose(browser, "Till", "sold")
        typed_over(browser, "^sold", "^sold + 1")
        version = image.install("Till", "sold ^sold * 2")
        browser.wait_text("#conflict", f"Replaced meanwhile by version {version}")
        same(browser.run("return document.querySelector('#source').value"), "sold  ^sold + 1")
        browser.press("s", "ctrl")
        browser.wait_text("#both", "sold ^sold * 2")
        browser.wait_text("#both", "sold  ^sold + 1")
        same(image.source("Till", "sold").source, "sold ^sold * 2")
        browser.click("#install-mine")
        until(lambda: image.source("Till", "sold").source == "sold  ^sold + 1")
        browser.wait("return !document.querySelector('#conflict')")
        typed_over(browser, "+ 1", "+ 3")
        theirs = image.install("Till", "sold ^0")
        browser.wait_text("#conflict", f"version {theirs}")
        browser.click("#take-theirs")
        browser.wait("return document.querySelector('#source').value === 'sold ^0'")
        image.remove("Till", "sold")
        browser.wait_text(".nothing", "has no method sold now")
        # A pattern that was changed overwrites no other method that is there.
        choose(browser, "Till", "weigh:")
        typed_over(browser, "weigh: n  ^true", "audit ^9")
        browser.press("s", "ctrl")
        browser.wait_text("#conflict", "There is a method audit already")
        true(image.source("Till", "audit").source != "audit ^9", "a method was overwritten unseen")
        browser.click("#install-mine")
        until(lambda: image.source("Till", "audit").source == "audit ^9")
        same(image.source("Till", "weigh:").source, "weigh: n  ^true")
        # Without anything typed another person's version is shown at once.
        choose(browser, "Till", "audit")
        image.install("Till", "audit ^5")
        browser.wait("return document.querySelector('#source').value === 'audit ^5'")


def a_removal_of_another_is_seen(program):
    """While one types, somebody else removes the method: the text stays, also behind another method and a page that is loaded anew, and its
    row is marked; it can be installed, or given up."""
    row = "(document.querySelector('[role=option][data-text=\"sell:\"]')?.innerText ?? '')"
    with shown(program) as (server, image, opened, browser):
        choose(browser, "NightTill", "sell:")
        typed_over(browser, "// 2", "// 3")
        typed = browser.run("return document.querySelector('#source').value")
        image.remove("NightTill", "sell:")
        browser.wait_text("#conflict", "Removed meanwhile")
        browser.wait(f"return {row}.includes('removed')")
        same(browser.run("return [document.querySelector('#source').value, document.querySelector('#source').offsetParent !== null]"), [typed, True])
        # Till has a method of that name, which is not taken for the one that was removed.
        choose(browser, "Till", "sell:")
        true("removed" not in browser.run(f"return {row}"), "another class's method is marked")
        choose(browser, "NightTill", "sell:")
        browser.wait("return document.querySelector('#source').value === arguments[0]", typed)
        browser.open(opened.address.partition("#")[0])
        connected(browser)
        browser.wait_text("#conflict", "Removed meanwhile")
        same(browser.run("return document.querySelector('#source').value"), typed)
        browser.press("s", "ctrl")
        browser.wait_text("#both", "// 3")
        browser.click("#install-mine")
        until(lambda: any(it.selector == "sell:" for it in image.methods("NightTill")))
        browser.wait(f"return {row}.startsWith('sell:') && !{row}.includes('removed')")
        typed_over(browser, "// 3", "// 4")
        image.remove("NightTill", "sell:")
        browser.wait(f"return {row}.includes('removed')")
        browser.click("#take-theirs")
        browser.wait("return !document.querySelector('[role=option][data-text=\"sell:\"]')")


def words_are_completed(program):
    """Tab completes what is typed, by the whole image; a choice is shown; and without a text, or behind Escape, Tab goes on."""
    value = "return document.querySelector('#entry').value"
    with shown(program) as (server, image, opened, browser):
        browser.write("#entry", "Customer >> lo")
        browser.press(TAB)
        browser.wait(value + " === arguments[0]", "Customer >> " + image.source("Customer", "lose").source)
        browser.run("document.querySelector('#entry').value = ''")
        browser.write("#entry", ":sen")
        browser.press(TAB)
        browser.wait(value + " === ':senders '")
        browser.press("s")
        browser.press(TAB)
        browser.wait_text("#offers", "shop")
        browser.wait_text("#offers", "sell:")
        browser.press("ho")
        browser.wait("return document.querySelector('#offers').hidden")
        browser.press(TAB)
        browser.wait(value + " === ':senders shop'")
        browser.press(ESCAPE + TAB)
        browser.wait("return document.activeElement.id !== 'entry'")
        browser.run("document.querySelector('#entry').value = ''; document.querySelector('#entry').focus()")
        browser.press(TAB)
        browser.wait("return document.activeElement.id !== 'entry'")
        browser.write("#entry", ":help\n")
        browser.wait_text(".card.long .said", "On this page Enter does what is typed")


def a_class_and_a_selector_are_found(program):
    """Ctrl K takes a class and the beginning of a selector; what the class inherits comes behind its own."""
    with shown(program) as (server, image, opened, browser):
        browser.press("k", "ctrl")
        browser.press("nighttill>>s")
        browser.wait("return document.querySelectorAll('#found .item').length === 2")
        same(browser.texts("#found .code"), ["NightTill › sell:", "Till › sold"])
        browser.run("document.querySelector('#palette input').value = ''")
        browser.press("Till >> w")
        browser.wait("return document.querySelector('#found .code')?.innerText === 'Till › weigh:'")
        browser.press(ENTER)
        browser.wait("return document.querySelector('.crumbs .sel')?.textContent === 'weigh:'")


def an_error_stands_in_its_place(program):
    """What is wrong is marked where it is, with advice; the cursor goes there; and nothing is installed."""
    with shown(program) as (server, image, opened, browser):
        choose(browser, "Till", "sell:")
        before = image.status().edits
        typed_over(browser, "sold := sold + n - left", "sold := sold + n - lft")
        browser.press("s", "ctrl")
        browser.wait_text(".said-here", "did you mean left?")
        same(browser.run("const it = document.querySelector('#source'); return it.value.slice(it.selectionStart, it.selectionEnd)"), "lft")
        same(browser.texts(".source .wrong"), ["lft"])
        same((image.status().edits, browser.run("return document.querySelector('#source').getAttribute('aria-invalid')")), (before, "true"))
        browser.press("left")
        browser.wait("return !document.querySelector('.said-here')")
        typed_over(browser, "^price", "^(price")
        browser.press("s", "ctrl")
        browser.wait_text(".said-here", "BadToken")
        typed_over(browser, "^(price", "^price + 0")
        browser.press("s", "ctrl")
        browser.wait_text(".toast", f"version {before + 1}")
        same(image.source("Till", "sell:").source.endswith("^price + 0"), True)


def messages_are_answered(program):
    """An answer, a fault and where it was, a name, and a turn that goes on and is broken off."""
    with shown(program) as (server, image, opened, browser):
        for text in ("t := Till actor", "t sold", "t foo"):
            browser.write("#entry", text + "\n")
        browser.wait_text(".card .said.done", "actor 0")
        browser.wait_text(".card .said.done", "nil")
        browser.wait_text(".card .said.fault", "fault notUnderstood in turn 2 of actor 0")
        browser.run("document.querySelector('.card .said.fault').parentNode.querySelector('button').click()")
        browser.wait_text(".card .why", "Till understands")
        browser.wait_text(".card button", "inspect actor 0")
        browser.wait_text("#names", "t")
        browser.write("#entry", "t audit\n")
        browser.wait_text(".card .said.runs", "Till › ")
        browser.click("#break")
        browser.wait_text(".card .said", "goes on in the server")
        browser.press("\ue013")
        same(browser.run("return document.querySelector('#entry').value"), "t audit")
        browser.run("document.querySelector('#names button').click()")
        browser.wait_text("#inspected", "Turn 3")
        browser.wait_text("#inspected .frame", "Till › audit")


def classes_are_changed(program):
    """A class is defined, gets a method and an actor, is put under another one, loses its method, and gets it back."""
    with shown(program) as (server, image, opened, browser):
        choose(browser, "Object")
        browser.click("#new-class")
        browser.write("#dialog [name=name]", "van")
        browser.click("#dialog .main")
        same([it.name for it in image.classes()][-1] != "van", True)
        browser.run("document.querySelector('#dialog [name=name]').value = ''")
        browser.write("#dialog [name=name]", "Van")
        browser.write("#dialog [name=slots]", "load goal" + ENTER)
        browser.wait("return !document.querySelector('dialog[open]') && document.querySelector('[role=treeitem][aria-selected=true]')?.dataset.text === 'Van'")
        browser.click("#new-method")
        # The lines behind the first are indented as the one before.
        browser.write("#source", "load: n\n  load := n.\n^self mass")
        browser.press("s", "ctrl")
        browser.wait_text(".toast", "no class has a method mass")
        same(image.source("Van", "load:").source, "load: n\n  load := n.\n  ^self mass")
        browser.wait(SELECTED, "load:")
        browser.run("[...document.querySelectorAll('.tools button')].find(it => it.innerText === 'New actor').click()")
        browser.wait_text(".toast", "actor 0, Van")
        browser.run("[...document.querySelectorAll('header button')].find(it => it.innerText === 'Remove').click()")
        browser.click("#dialog .main")
        browser.wait_text(".nothing", "has no method load: now")
        browser.run("[...document.querySelectorAll('.toast button')].find(it => it.innerText === 'Undo').click()")
        until(lambda: any(it.selector == "load:" for it in image.methods("Van")))
        choose(browser, "NightRule")
        browser.run("[...document.querySelectorAll('.tools button')].find(it => it.innerText.startsWith('Superclass')).click()")
        browser.write("#dialog [name=above]", "Till")
        browser.click("#dialog .main")
        browser.wait_text("#dialog .said", "SlotsDiffer")
        browser.write("#dialog [name=above]", "MoonRule")
        browser.click("#dialog .main")
        until(lambda: next(it.superclass for it in image.classes() if it.name == "NightRule") == "MoonRule")
        browser.wait("return document.querySelector('[role=treeitem][data-text=NightRule]')?.getAttribute('aria-level') === '5'")


def keys_alone_are_enough(program):
    """Without a mouse: what is found, read, edited, installed, typed and inspected."""
    with shown(program) as (server, image, opened, browser):
        till = traffic(image)
        browser.press("k", "ctrl")
        browser.press("Till sold")
        browser.wait_text("#found .item", "Till › sold")
        browser.press(ENTER)
        browser.wait("return document.querySelector('.crumbs .sel')?.textContent === 'sold' && document.querySelector('#source').value.startsWith('sold')")
        browser.press("e", "alt")
        browser.press(END, "ctrl")
        browser.press(" + 100")
        browser.press("s", "ctrl")
        until(lambda: image.source("Till", "sold").source == "sold  ^sold + 100")
        browser.press("v", "alt")
        browser.wait("return document.activeElement.id === 'under-versions' && document.querySelectorAll('#under-body .sect').length === 2")
        browser.press("n", "alt")
        browser.wait_text("#under-body", "No method sends sold")
        browser.press("`", "ctrl")
        browser.press(f"actor {till.number} sold" + ENTER)
        browser.wait_text(".card .said.done", str(100 + image.wait(image.sender(9).post(till, "sold")) - 100))
        browser.run("document.activeElement.blur()")
        browser.press("2", "alt")
        browser.wait_text(".rows .arow", "Till")
        for _ in range(40):
            if browser.run("return document.activeElement.id") == "actor-rows":
                break
            browser.press(TAB)
        same(browser.run("return document.activeElement.id"), "actor-rows")
        browser.press(DOWN * 3)
        browser.wait("return document.querySelector('.rows .arow.on') !== null")
        browser.wait_text("#inspected", "Mailbox")
        browser.press("1", "alt")
        browser.wait("return document.querySelectorAll('[role=treeitem]').length > 8")
        browser.run("document.querySelector('[role=treeitem][tabindex=\"0\"]').focus()")
        browser.press("rule")
        browser.wait("return document.activeElement.dataset.text === 'Rule' && document.querySelector('[role=treeitem][aria-selected=true]').dataset.text === 'Rule'")
        browser.press(LEFT)
        browser.wait("return document.activeElement.getAttribute('aria-expanded') === 'false' && !document.querySelector('[data-text=StepRule]')")
        browser.press(RIGHT)
        browser.wait("return document.querySelector('[role=treeitem][data-text=StepRule]')")
        browser.press(DOWN)
        browser.wait("return document.querySelector('[role=treeitem][aria-selected=true]').dataset.text === 'DayRule'")
        browser.run("document.querySelector('#tab-browse').focus()")
        browser.press(RIGHT)
        browser.wait("return document.activeElement.id === 'tab-actors' && document.activeElement.getAttribute('aria-selected') === 'true'")


TRIALS = (
    each_view_is_shown, an_edit_is_made, an_edit_of_another_is_seen, a_removal_of_another_is_seen, words_are_completed,
    a_class_and_a_selector_are_found, an_error_stands_in_its_place, messages_are_answered, classes_are_changed, keys_alone_are_enough,
)
