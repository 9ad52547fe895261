"""Trials in a real browser of turns that fail: they are seen as they come, and lead to their places."""

from page_parts import watch

from .try_common import going_on, post, same, until
from .try_faults import NEWEST, prices
from .try_in_browser import is_legible, shown, typed_over

MARKED = "return [...document.querySelectorAll('#failure .now')].map(it => it.textContent).join('')"
ANEW = "addEventListener('pagehide', () => sessionStorage.removeItem('actorimage-seen'))"
AT = "const it = document.querySelector('#source'); return it.value.slice(it.selectionStart, it.selectionEnd)"


def legible(browser, where):
    """Whether all can be read, light and dark."""
    for is_dark in (True, False):
        browser.look_at(1280, 900, is_dark)
        browser.wait("return document.documentElement.dataset.theme === arguments[0]", "dark" if is_dark else "light")
        is_legible(browser, f"{where}, dark {is_dark}")


def faults_lead_to_their_places(program):
    """A fault of an actor that is in its next turn comes into the head and the list; from its row one comes to the frames, and from a
    frame into the editor, at the send that failed."""
    with shown(program) as (server, image, opened, browser):
        price, dear = prices(image)
        browser.wait("return document.querySelector('#figure-faults .value')?.innerText === '0'")
        sender = image.sender(1)
        sender.post(price, "quote:", 50)
        sender.post(price, "spin")
        browser.wait("return document.querySelector('#figure-faults .value')?.innerText === '1'")
        browser.click("#figure-faults")
        browser.wait_text(".item.fault", "badArgument")
        legible(browser, "faults")
        browser.click(".item.fault")
        browser.wait(MARKED + " === '*'")
        browser.wait_text("#failure", "50 * nil")
        browser.wait_text("#inspected", "spin")
        same(browser.texts("#failure .frame .code"), ["Price › of:", "Price › quote:"])
        legible(browser, "where it failed")
        # It stays while the actor goes on, and the frame that waited is one step away.
        browser.run("document.querySelectorAll('#failure .frame')[1].click()")
        browser.wait(MARKED + " === 'of:'")
        ticks = opened.page.watched.ticks
        until(lambda: opened.page.watched.ticks > ticks + 3)
        same(browser.run(MARKED), "of:")
        browser.run("document.querySelectorAll('#failure .frame')[0].click()")
        browser.click("#edit-frame")
        browser.wait(AT + " === '*'")
        same([browser.text(".crumbs .sel"), browser.text("#main .source .failed .site > span")], ["of:", "*"])
        legible(browser, "the place in the editor")
        # What is typed before the place moves it, and a version of somebody else is said.
        typed_over(browser, "| cost |", "| cost more |")
        browser.click("#figure-faults")
        browser.click(".item.fault")
        browser.wait(MARKED + " === '*'")
        browser.click("#edit-frame")
        browser.wait(AT + " === '*'")
        browser.run("[...document.querySelectorAll('header button')].find(it => it.innerText === 'Revert').click()")
        browser.wait("return !document.querySelector('#source').value.includes('more')")
        version = image.install("Price", "of: n ^n")
        browser.wait("return document.querySelector('#source').value === 'of: n ^n'")
        browser.click("#figure-faults")
        browser.click(".item.fault")
        browser.wait_text("#failure", "no longer the one of its class")
        browser.click("#edit-frame")
        browser.wait_text(".banner", f"and this is {version}")
        # Behind a checkpoint there is none.
        image.checkpoint()
        browser.wait("return document.querySelector('#figure-faults .value')?.innerText === '0'")


def faults_over_time_are_drawn(program):
    """Beside messages and steps stand the faults a second, with a line and a chip at the edit after which they come."""
    chart = "const it = document.querySelector(\"section[aria-label='Faults a second']\");"
    with shown(program) as (server, image, opened, browser):
        price, _ = prices(image)
        browser.click("#tab-pictures")
        browser.wait(chart + "return it.querySelectorAll('path').length === 2")
        same(browser.run(chart + "return it.querySelector('.legend').innerText.trim()"), "turns that failed 0")
        version = image.install("Price", "rate: x ^x zork")
        browser.wait(chart + "return it.querySelectorAll('line.edit').length && [...it.querySelectorAll('.chip')].some(chip => chip.innerText === arguments[0])",
            f"{version} Price › rate:")

        label = "const said = it.querySelector('.picture').getAttribute('aria-label');"
        with going_on(server.path, (price, "rate:", 1)):
            browser.wait(chart + label + "return said.startsWith('Faults a second: turns that failed ') && !said.endsWith(' 0')")
        same(browser.run("return [...document.querySelectorAll('.rights .pane')].map(it => it.getAttribute('aria-label'))"),
            ["Messages a second", "Steps a second", "Faults a second", "Messages that wait", "Mailboxes over time"])
        legible(browser, "faults over time")


def faults_of_the_workspace_are_found(program):
    """A message that is typed and fails leads to the place too; so does what the inspector lists; and an empty inspector lists the newest."""
    with shown(program) as (server, image, opened, browser):
        price, _ = prices(image)
        browser.write("#entry", "p := actor 0. p deep: 2\n")
        browser.wait_text(".card button", "inspect actor 0")
        browser.run("[...document.querySelectorAll('.card button')].find(it => it.innerText === 'inspect actor 0').click()")
        browser.wait(MARKED + " === 'foo:bar:'")
        same(len(browser.texts("#failure .frame")), 3)
        browser.click("#failure h3 button")
        browser.wait("return !document.querySelector('#failure .frame')")
        post(image, 1, (price, "zork"))
        browser.wait_text("#inspected", "in turn 2 where")
        browser.run("document.querySelector(\"[data-key='where 2']\").click()")
        browser.wait_text("#failure", "a Price zork")
        # A tab that is opened anew has chosen no actor.
        browser.run(ANEW)
        browser.open("about:blank")
        browser.open(opened.address.partition("#")[0])
        browser.wait("return document.querySelector('#lamp').className === 'lamp there'")
        browser.click("#tab-actors")
        browser.wait_text("#inspected .item.fault", "actor 0, Price")


def the_newest_kept_is_shown_instead(program):
    """A row whose fault the image keeps no more leads to the newest one of its actor that it keeps, and that is said; where it keeps none
    of the actor, that is said."""
    tick = watch.TICK
    with shown(program) as (server, image, opened, browser):
        price, dear = prices(image)
        post(image, 1, (dear, "rate:", 1), (price, "of:", 50))
        browser.wait("return document.querySelector('#figure-faults .value')?.innerText === '2'")
        browser.click("#figure-faults")
        browser.wait_text(".item.fault", "actor 1, Dear")
        try:
            # Until the next tick the list is that of now.
            ticks, watch.TICK = opened.page.watched.ticks, 8
            until(lambda: opened.page.watched.ticks > ticks + 1)
            for number in (3, 4):
                post(image, number, *[(price, "quote:", 5)] * (NEWEST // 2 + 3))
            browser.click("[data-key='fault 0 1']")
            browser.wait_text("#instead", f"Where turn 1 failed is not kept any more: an image keeps the newest {NEWEST} faults. This is turn {NEWEST + 7}, the newest of actor 0")
            same(browser.texts("#failure .frame .code"), ["Price › of:", "Price › quote:"])
            browser.wait_text("#failure h3", f"Turn {NEWEST + 7}")
            browser.click("#tab-pictures")
            browser.click("[data-key='fault 1 1']")
            browser.wait_text("#failure", "is not known any more")
            same(browser.texts("#instead"), [])
        finally:
            watch.TICK = tick
        browser.wait("return document.querySelector('#figure-faults .value')?.innerText === arguments[0]", str(NEWEST + 8))
        legible(browser, "another in place of it")


TRIALS = faults_lead_to_their_places, faults_over_time_are_drawn, faults_of_the_workspace_are_found, the_newest_kept_is_shown_instead
