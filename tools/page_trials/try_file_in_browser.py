"""Trials in a real browser of a page on an image file."""

import os

from .browser import Browser
from .seen_well import NAMELESS, PALE
from .try_common import Opened, image_of, same, true, until
from .try_in_browser import choose, connected, quiet

HIDDEN = "return arguments[0].map(it => document.querySelector(it).offsetParent === null)"


def a_file_says_that_it_is_one(program):
    """The head says that it is a file, read alone; nothing is typed or installed; and a journal beside it is told, if it has anything."""
    with image_of(program, "--image", "shop.image", "--journal", "--sync", "0") as (server, image):
        path = os.path.join(server.folder, "shop.image")
        image.define("Extra")
        image.save()
        for has_more in (False, True):
            if has_more:
                image.install("Extra", "late ^1")
                until(lambda: os.path.getsize(path + ".journal") > 150, "the journal")
            with Opened(path, of_file=True) as opened, Browser(1280, 900) as browser:
                browser.open(opened.address)
                connected(browser)
                same(browser.text("#is-file"), "file, read alone")
                same("which was read" in browser.run("return document.querySelector('#lamp').title"), True)
                said = browser.text("#beside")
                same((bool(said), "shop.image.journal" in said and "replay" in said), (has_more, has_more))
                choose(browser, "Till", "sold")
                browser.run("document.querySelector('#source').focus()")
                browser.press("x")
                browser.press("s", "ctrl")
                browser.wait_text(".banner.bad", "This is an image file, read alone")
                same(browser.run("return document.querySelector('#source').value"), "sold  ^sold")
                same(browser.run(HIDDEN, ["#install", "#new-method", "#work", "#save", "#checkpoint"]), [True] * 5)
                choose(browser, "Extra")
                browser.wait_text(".nothing", "Extra has no method of its own")
                for is_dark in (True, False):
                    browser.look_at(1280, 900, is_dark)
                    browser.wait("return document.documentElement.dataset.theme === arguments[0]", "dark" if is_dark else "light")
                    same((browser.run(PALE), browser.run(NAMELESS)), ([], []))
                said = opened.do("define", name="A", above="Object", slots=[])["said"]
                true("--look" not in said and "image file" in said, said)
                quiet(browser)


TRIALS = (a_file_says_that_it_is_one,)
