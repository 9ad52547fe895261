"""Trials in a real browser of large images and of narrow windows."""

from .try_common import many, same, true
from .try_in_browser import choose, shown, traffic

CLASSES, OF_KERNEL, ACTORS = 1_024, 8, 65_536
# Elements that a view of a full image may have, and those that a list of classes may.
MOST_ELEMENTS, OF_CLASSES = 4_000, 12_000
ELEMENTS = "return document.getElementsByTagName('*').length"
# Where the pane of the room ends, and its last row once it is scrolled to.
ROOM = """
  const it = document.querySelector('[aria-label=Room]'), last = it.querySelector('tr:last-child');
  it.querySelector('.scroll').scrollTop = 1e6;
  return [it, last].map(each => Math.round(each.getBoundingClientRect().bottom - it.getBoundingClientRect().top));
"""
# The chips of each chart, behind the box of its picture.
CHIPS = """
  const box = it => { const { left, top, right, bottom } = it.getBoundingClientRect(); return [left, top, right, bottom]; };
  return [...document.querySelectorAll('.rights .pane')].slice(0, 3).map(it =>
    [it.querySelector('.picture'), ...it.querySelectorAll('.edits .chip:not([hidden])')].map(box));
"""
# What lies over what in the heads of panes, and what is wider than its place there.
OVER = """
  const found = [];
  for (const head of document.querySelectorAll('.pane > header, .ahead, #bar, .banner, #work > header')) {
    const all = [...head.children].map(it => [it, it.getBoundingClientRect()]).filter(([, box]) => box.width && box.height);
    for (const [k, [a, x]] of all.entries()) for (const [b, y] of all.slice(k + 1))
      if (x.left < y.right - 1 && y.left < x.right - 1 && x.top < y.bottom - 1 && y.top < x.bottom - 1)
        found.push(`${a.innerText} over ${b.innerText}`);
    for (const [it] of all) if (it.scrollWidth > it.clientWidth + 1 && it.clientWidth && getComputedStyle(it).overflowX === 'visible')
      found.push(`${it.innerText} is wider than its place`);
  }
  return found;
"""


def full_images_are_shown(program):
    """1,024 classes and 65,536 actors: the lists scroll, filter and sort, and have no more elements than are in sight."""
    with shown(program, file=many(CLASSES - OF_KERNEL, ACTORS)) as (server, image, opened, browser):
        browser.wait("return document.querySelectorAll('[role=treeitem]').length === arguments[0]", CLASSES)
        true(browser.run(ELEMENTS) < OF_CLASSES, "the tree has too many elements")
        choose(browser, "C1000")
        browser.wait("return document.querySelector('.definition').innerText.includes('C1000 : C940')")
        browser.write("input[aria-label='Filter of classes']", "c77")
        browser.wait("return document.querySelectorAll('[role=treeitem]').length === 11")
        browser.click("#tab-actors")
        browser.wait("return Number(document.querySelector('[role=table]').getAttribute('aria-rowcount')) === arguments[0]", ACTORS + 1)
        browser.run("document.querySelector('#actor-rows').scrollTop = 1e9")
        browser.wait("return [...document.querySelectorAll('.rows .arow')].some(it => it.actor === arguments[0] && it.style.display !== 'none')", ACTORS - 1)
        browser.run("[...document.querySelectorAll('.ahead button')].find(it => it.innerText.startsWith('class')).click()")
        browser.wait("return document.querySelector('.rows .arow.on, .rows .arow') && [...document.querySelectorAll('.ahead [aria-sort=ascending]')].length === 1")
        browser.write("#actor-filter", "C7")
        browser.wait("return document.querySelector('[role=table]').getAttribute('aria-rowcount') === String(arguments[0] + 1)",
            len(range(7, ACTORS, 50)))
        same(browser.run("return Math.max(...[...document.querySelectorAll('.rows .arow')].map(it => it.getBoundingClientRect().height))") <= 26, True)
        true(browser.run(ELEMENTS) < MOST_ELEMENTS, "the table has too many elements")
        browser.run("document.querySelector('#map').dispatchEvent(new MouseEvent('click', { clientX: document.querySelector('#map').getBoundingClientRect().x + 3, clientY: document.querySelector('#map').getBoundingClientRect().y + 3 }))")
        browser.wait_text("#inspected", "Variables")
        browser.press("k", "ctrl")
        browser.press("65535")
        browser.wait_text("#found .item", "actor 65535")
        browser.click("#found .item")
        browser.wait_text(".crumbs", "actor 65535")


def narrow_windows_hold_all(program):
    """From a wide window to that of a telephone: nothing stands beyond the edge, and each part can be scrolled to and used."""
    beyond = """
      const root = document.scrollingElement, found = [];
      if (root.scrollWidth > root.clientWidth + 1) found.push(`the page is ${root.scrollWidth} wide`);
      for (const it of document.querySelectorAll('#bar > *, .pane, .pane > header > *, #work, #typed textarea, .figure')) {
        const box = it.getBoundingClientRect();
        if (box.width && it.checkVisibility() && (box.right > innerWidth + 1 || box.left < -1)) found.push(`${it.tagName} ${it.id || it.getAttribute('class')} ends at ${Math.round(box.right)}`);
      }
      for (const it of document.querySelectorAll('.pane')) { const box = it.getBoundingClientRect(); if (box.width < 120 || box.height < 60) found.push(`${it.getAttribute('aria-label')} has ${Math.round(box.width)} by ${Math.round(box.height)}`); }
      return found;
    """
    with shown(program) as (server, image, opened, browser):
        traffic(image)
        for width, height in ((1920, 1080), (1280, 800), (1024, 700), (800, 600), (480, 800), (400, 800)):
            browser.look_at(width, height)
            browser.wait("return innerWidth === arguments[0]", width)
            for view in ("browse", "actors", "pictures"):
                browser.click(f"#tab-{view}")
                browser.wait("return document.querySelector('#main').className === arguments[0] && document.querySelectorAll('#main .pane').length > 1", view)
                same((width, view, browser.run(beyond)), (width, view, []))
            browser.click("#tab-browse")
            choose(browser, "Till", "sold")
            browser.run("document.querySelector('#source').scrollIntoView()")
            browser.run("document.querySelector('#source').focus()")


def a_telephone_shows_what_counts(program):
    """At 480 pixels the source is in sight below lists that take a third; no head is printed over another; names take a third of the
    workspace at most; and the table of the room that is left scrolls in its pane."""
    with shown(program, width=480, height=800) as (server, image, opened, browser):
        traffic(image)
        for width, height in ((480, 800), (360, 740), (1280, 620)):
            browser.look_at(width, height)
            browser.wait("return innerWidth === arguments[0]", width)
            for view in ("browse", "actors", "pictures"):
                browser.click(f"#tab-{view}")
                browser.wait("return document.querySelector('#main').className === arguments[0] && document.querySelectorAll('#main .pane').length > 1", view)
                same((width, view, browser.run(OVER)), (width, view, []))
            browser.wait("return document.querySelectorAll('[aria-label=Room] td').length > 9")
            whole, last = browser.run(ROOM)
            true(0 < last <= whole, f"the last row of the room ends at {last} of {whole}")
            names = browser.run("return document.querySelector('#names').offsetWidth / document.querySelector('#work').clientWidth")
            true(names < 0.34, f"names take {names:.2f}")
        browser.look_at(480, 800)
        browser.click("#tab-browse")
        choose(browser, "Till", "sell:")
        browser.run("scrollTo(0, 0)")
        box = "const it = document.querySelector(arguments[0]).getBoundingClientRect(); return [it.top, it.bottom]"
        top = browser.run(box, ".over")[0]
        true(top < 480, f"the source begins at {top}")
        lists = browser.run(box, "#main .pane")
        true(lists[1] - lists[0] < 800 / 3, f"the lists take {lists}")


def edits_are_told_apart(program):
    """Chips of edits that come together do not lie over one another, nor over the numbers, and stay in their picture."""
    with shown(program) as (server, image, opened, browser):
        browser.click("#tab-pictures")
        for width, height in ((1280, 900), (1100, 700)):
            browser.look_at(width, height)
            for number in range(9):
                image.install("Till", f"sold ^{number}")
                image.install("NightRule", f"priceOf: n  ^n * {number}")
            browser.wait("return document.querySelectorAll('.edits .chip').length > 8")
            for picture, *chips in browser.run(CHIPS):
                true(len(chips) >= 2, "there are no chips")
                for number, (left, top, right, bottom) in enumerate(chips):
                    true(left >= picture[0] and right <= picture[2] - 30 and top >= picture[1] and bottom <= picture[3], "a chip is out of its place")
                    for other in chips[number + 1 :]:
                        apart = right <= other[0] or left >= other[2] or bottom <= other[1] or top >= other[3]
                        true(apart, f"{(left, top, right, bottom)} lies over {other}")


def pictures_follow_the_colours(program):
    """What is drawn has the colours of the page at once, also where these changed in another view."""
    pixel = "const it = document.querySelector(arguments[0]); const dot = it?.width ? [...it.getContext('2d').getImageData(2, 5, 1, 1).data].join() : '';"
    # The browser has advice on pixels that are read, which is for this trial alone.
    with shown(program, may_say=("willReadFrequently",)) as (server, image, opened, browser):
        till, sender = traffic(image), image.sender(2)
        for _ in range(9):
            sender.post(till, "audit")
        browser.click("#tab-actors")
        browser.wait_text(".legend", "never ran 0")
        for tab, canvas in (("actors", "#map"), ("pictures", ".strips canvas")):
            browser.click(f"#tab-{tab}")
            light = browser.wait(pixel + "return dot && dot !== '0,0,0,0' ? dot : ''", canvas)
            dark = browser.run("document.querySelector('#theme').click();" + pixel + "return dot", canvas)
            true(light != dark, f"{canvas} keeps its colours")
            browser.click("#tab-browse")
            browser.click("#theme")
            browser.click(f"#tab-{tab}")
            browser.wait(pixel + "return dot === arguments[1]", canvas, light)


TRIALS = full_images_are_shown, narrow_windows_hold_all, a_telephone_shows_what_counts, edits_are_told_apart, pictures_follow_the_colours
