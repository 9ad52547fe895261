"""Trials in a real browser of what is lost, and of who gets in there."""

import contextlib
import http.server
import os
import signal
import subprocess
import sys
import threading
import time
import webbrowser

import actorimage
from page_parts.letting_in import CHECKS, HEADERS, POLICY
from page_parts.main import opened as led
from workspace_trials.serving import Server as ImageServer

from .browser import Browser
from .try_common import PAGE, SECRET, Opened, image_of, same, true, until
from .try_in_browser import choose, connected, quiet, shown, typed_over

# What the browser's console says where a server is gone.
GONE = ("ERR_CONNECTION_REFUSED", "ERR_INCOMPLETE_CHUNKED_ENCODING", "ERR_CONNECTION_RESET", "ERR_EMPTY_RESPONSE",
    "Failed to load resource")
# Seconds of a sleep: more than a tick, and more than a reply takes.
ASLEEP = 3
HOSTILE = "evil \"<img src=x onerror='window.bad=1'><script>window.bad=1</script>\" ^#evil"


def drafts_stay(program):
    """What was typed and not installed is there behind a lost image, another server, and a page that is loaded anew."""
    with shown(program, "--image", "shop.image", may_say=GONE) as (server, image, opened, browser):
        choose(browser, "Till", "sold")
        typed_over(browser, "^sold", "^sold + 41")
        browser.write("#entry", "t half typed")
        image.save()
        image.end()
        server.end()
        browser.wait("return document.querySelector('#lamp').className === 'lamp lost' && /as of \\d\\d:\\d\\d:\\d\\d/.test(document.querySelector('#as-of').innerText)")
        true(browser.run("return document.body.classList.contains('lost')"), "the page does not look lost")
        same(browser.run("return document.querySelector('#source').value"), "sold  ^sold + 41")
        browser.press("s", "ctrl")
        with ImageServer(program, server.folder, "--workers", "1", "--image", "shop.image"):
            connected(browser)
            same(browser.run("return document.querySelector('#source').value"), "sold  ^sold + 41")
            browser.open(opened.address.partition("#")[0])
            connected(browser)
            browser.wait("return document.querySelector('#source').value === 'sold  ^sold + 41'")
            same(browser.run("return document.querySelector('#entry').value"), "t half typed")
            browser.wait("return !document.querySelector('#install').disabled")
            browser.press("s", "ctrl")
            with actorimage.connect(server.path) as other:
                until(lambda: other.source("Till", "sold").source == "sold  ^sold + 41")


def a_full_server_is_shown(program):
    """With 64 sessions open the lamp and the words beside it say so, what was seen stays in sight, and the page goes on once one ends."""
    with shown(program) as (server, image, opened, browser), contextlib.ExitStack() as others:
        choose(browser, "Till", "sold")
        # The sessions of the page are given up, and taken by others.
        with contextlib.suppress(actorimage.TooMany):
            opened.page.desk.rest()
            while True:
                others.enter_context(actorimage.connect(server.path))
                opened.page.desk.rest()
        browser.wait("return document.querySelector('#lamp').className === 'lamp full'")
        browser.wait_text("#as-of", "the server has 64 sessions, as many as it may; this page goes on once one of them ends")
        same(browser.run("return document.querySelector('#source').value"), "sold  ^sold")
        others.close()
        connected(browser)
        same(browser.text("#as-of"), "")


def a_laptop_that_sleeps_goes_on(program):
    """A machine that sleeps stops the server, the page's server and the browser's window alike. Awake again, the page goes on by itself, with
    what was typed and what others have edited; so it does where the sleep has cut its sessions."""
    with contextlib.ExitStack() as stack:
        server, image = stack.enter_context(image_of(program))
        browser = stack.enter_context(Browser(1280, 900))
        started = subprocess.Popen([sys.executable, PAGE, server.path], stdout=subprocess.PIPE, text=True)
        stack.callback(started.stdout.close)
        stack.callback(started.wait)
        stack.callback(started.kill)
        browser.open(started.stdout.readline().strip())
        connected(browser)
        choose(browser, "Till", "sold")
        typed_over(browser, "^sold", "^sold + 5")
        browser.write("#entry", "t half typed")
        for number, cuts in enumerate((False, True)):
            asleep = [server.process.pid, started.pid]
            for it in asleep:
                os.kill(it, signal.SIGSTOP)
            browser.devtools("Network.enable")
            browser.devtools("Network.emulateNetworkConditions", offline=cuts, latency=0, downloadThroughput=-1, uploadThroughput=-1)
            time.sleep(ASLEEP)
            for it in asleep:
                os.kill(it, signal.SIGCONT)
            browser.devtools("Network.emulateNetworkConditions", offline=False, latency=0, downloadThroughput=-1, uploadThroughput=-1)
            version = image.install("Till", f"weigh: n ^{number}")
            choose(browser, "Till", "weigh:")
            browser.wait_text(".crumbs", f"version {version},")
            choose(browser, "Till", "sold")
            connected(browser)
            same(browser.run("return [document.querySelector('#source').value, document.querySelector('#entry').value]"),
                ["sold  ^sold + 5", "t half typed"])
        browser.press("s", "ctrl")
        until(lambda: image.source("Till", "sold").source == "sold  ^sold + 5")
        same([it for it in browser.log() if not any(part in it for part in (*GONE, "ERR_INTERNET_DISCONNECTED", "ERR_NETWORK"))], [])


def a_new_method_has_a_row(program):
    """A new method that is typed and not installed stands among the methods, and what was typed is there again; installed it has its name."""
    with shown(program) as (server, _, _, browser):
        choose(browser, "Till", "sold")
        browser.click("#new-method")
        browser.write("#source", "half ^1")
        choose(browser, "Till", "sold")
        same(browser.texts("[role=option][data-text='']"), ["new method\n●"])
        browser.click("[role=option][data-text='']")
        browser.wait("return document.querySelector('#source').value === 'half ^1'")
        same(browser.run("return document.querySelector('[role=option][aria-selected=true]').dataset.text"), "")
        browser.press("s", "ctrl")
        browser.wait("return document.querySelector('[role=option][aria-selected=true]')?.dataset.text === 'half'")
        same(browser.texts("[role=option][data-text='']"), [])


def a_hidden_window_rests(program):
    """A window that nobody sees asks nothing; seen again it goes on. One without the token is told what it needs."""
    with shown(program) as (server, image, opened, browser):
        true(opened.page.watched.views, "the window does not watch")
        hide = "Object.defineProperty(document, 'hidden', { configurable: true, get: () => arguments[0] }); document.dispatchEvent(new Event('visibilitychange'))"
        browser.run("const hidden = arguments[0]; Object.defineProperty(document, 'hidden', { configurable: true, get: () => hidden }); document.dispatchEvent(new Event('visibilitychange'))", True)
        until(lambda: not opened.page.watched.views, "the end of the watch")
        browser.run(hide.replace("arguments[0]", "false"))
        until(lambda: opened.page.watched.views, "the watch")
        connected(browser)
        same(browser.run("return [location.hash, sessionStorage.getItem('actorimage-token')]"), ["", SECRET])
        same(browser.run("return document.cookie"), "")
        browser.run("sessionStorage.clear()")
        browser.open("about:blank")
        browser.open(opened.address.partition("#")[0])
        browser.wait_text("#nothing", "without its token")


def a_file_leads_to_the_page(program):
    """What --open writes leads a browser to the page, as from another site; nothing of the token stays in the address."""
    before, webbrowser.open = webbrowser.open, lambda address: None
    try:
        with image_of(program) as (server, _), Opened(server.path) as opened, Browser(900, 600) as browser:
            with led(opened.address) as folder:
                browser.open(f"file://{folder}/page.html")
                connected(browser)
                same(browser.run("return location.hash"), "")
            quiet(browser)
    finally:
        webbrowser.open = before


def texts_are_texts(program):
    """What stands in an image becomes no element and no script: not in a source, nor in a name, a symbol or an answer."""
    with shown(program) as (server, image, opened, browser):
        image.define("Evil")
        image.install("Evil", HOSTILE)
        image.install("Evil", "next " + HOSTILE.removeprefix("evil "))
        choose(browser, "Evil", "evil")
        browser.wait("return document.querySelector('#source').value === arguments[0]", HOSTILE)
        browser.write("#entry", "e := Evil actor. e evil\n")
        browser.wait_text(".card .said.done", "#evil")
        browser.write("#entry", ":methods Evil\n")
        browser.wait_text(".card .said", "<script>")
        browser.click("#under-versions")
        browser.wait_text("#under-body", "onerror")
        same(browser.run("return [window.bad ?? null, document.querySelectorAll('img, script:not([src]), iframe').length]"), [None, 0])


def other_pages(address):
    """A server of another origin, whose page frames the page, posts to it and loads its script."""
    body = f"""<!DOCTYPE html><title>another</title><iframe src="{address}"></iframe><script src="{address}main.js" type="module"></script>""".encode()

    class Another(http.server.BaseHTTPRequestHandler):
        def log_message(self, *_):
            pass

        def do_GET(self):
            self.send_response(200)
            self.send_header("Content-Type", "text/html")
            self.end_headers()
            self.wfile.write(body)

    return http.server.ThreadingHTTPServer(("127.0.0.1", 0), Another)


def the_browser_keeps_others_out(program):
    """No text becomes markup, no script but the page's own runs, no other page frames it or asks its server. Where a header is taken
    out, its danger is there."""
    markup = "try { document.createElement('div').innerHTML = '<b>x</b>'; return 'taken' } catch { return 'refused' }"
    script = "const it = document.createElement('script'); try { it.textContent = 'window.ran = 1'; document.head.append(it) } catch { } return window.ran ?? 0"
    style = "const it = document.createElement('p'); it.setAttribute('style', 'color: rgb(1, 2, 3)'); document.body.append(it); return getComputedStyle(it).color === 'rgb(1, 2, 3)'"
    says = ("Content Security Policy", "TrustedHTML", "TrustedScript", "favicon", "Refused to", "frame", "403", "blocked",
        "X-Frame-Options", "Framing", "script-src", "style-src", "ERR_FAILED", "ERR_BLOCKED_BY_RESPONSE")
    with image_of(program) as (server, _), Opened(server.path) as opened, Browser(900, 600) as browser:
        def opens(without=None):
            policy = "; ".join(f"{name} {what}" for name, what in POLICY.items() if name != without)
            opened.server.headers = {name: text for name, text in {**HEADERS, "Content-Security-Policy": policy}.items() if name != without}
            browser.open("about:blank")
            browser.open(opened.address)
            connected(browser)

        for without, wanted in ((None, ["refused", 0, False]), ("require-trusted-types-for", ["taken", 0, False]),
            ("style-src", ["refused", 0, False])):
            opens(without)
            same((without, [browser.run(markup), browser.run(script), browser.run(style)]), (without, wanted))
        opened.server.headers = {name: text for name, text in HEADERS.items() if name != "Content-Security-Policy"}
        browser.open("about:blank")
        browser.open(opened.address)
        connected(browser)
        same([browser.run(markup), browser.run(script), browser.run(style)], ["taken", 1, True])
        opened.server.headers = HEADERS
        page = opened.address.partition("#")[0]
        with other_pages(page) as another:
            threading.Thread(target=another.serve_forever, args=(0.05,), daemon=True).start()
            asks = f"""return fetch("{page}look", {{ method: "POST", headers: {{ "Content-Type": "application/json", "X-Actorimage": "{SECRET}" }}, body: '{{"what":"faults"}}' }}).then(it => it.status, () => "kept out")"""
            simple = f"""return fetch("{page}look", {{ method: "POST", mode: "no-cors", body: '{{"what":"faults"}}' }}).then(it => it.type, () => "kept out")"""
            for host in ("127.0.0.1", "localhost"):
                browser.open(f"http://{host}:{another.server_address[1]}/")
                same(browser.run(asks), "kept out")
                true(browser.run(simple) in ("opaque", "kept out"), "another page reads an answer")
                browser.wait("return document.readyState === 'complete'")
                same(browser.run("try { return document.querySelector('iframe').contentDocument?.querySelector('#head') ? 'seen' : 'nothing' } catch { return 'nothing' }"), "nothing")
                same(browser.run("return document.querySelector('#head')"), None)
            same(framed(browser, another, opened, ()), False)
            same(framed(browser, another, opened, ("Content-Security-Policy", "X-Frame-Options", "Cross-Origin-Resource-Policy")), True)
            another.shutdown()
        same([it for it in browser.log() if not any(part in it for part in says)], [])


def framed(browser, another, opened, without):
    """Whether another page shows the page in a frame, where the check of the site does not refuse that before, and headers are taken
    out."""
    opened.server.gate.checks = tuple(it for it in CHECKS if it != "site")
    opened.server.headers = {name: text for name, text in HEADERS.items() if name not in without}
    browser.open("about:blank")
    browser.open(f"http://127.0.0.1:{another.server_address[1]}/")
    browser.wait("return document.readyState === 'complete'")
    browser.enter("iframe")
    return browser.run("return document.querySelector('#head') !== null")


def only_looks_in_the_browser(program):
    """A page that only looks shows all, and says why where one tries to change something."""
    with image_of(program) as (server, image), Opened(server.path, looks_only=True) as opened, Browser(1280, 900) as browser:
        browser.open(opened.address)
        connected(browser)
        before = image.status().edits
        same(browser.run("return [...document.querySelectorAll('#checkpoint, #save')].map(it => it.hidden)"), [True, True])
        choose(browser, "Till", "sold")
        typed_over(browser, "^sold", "^1")
        browser.press("s", "ctrl")
        browser.wait_text(".banner", "changes nothing")
        browser.write("#entry", "Till actor\n")
        browser.wait_text(".card .said.refused", "changes nothing")
        same((image.status().edits, image.status().actors), (before, 0))
        same(browser.log(), [])


def the_end_of_the_page_is_told(program):
    """Where the page's own server ends, the page says so, and drafts stay."""
    with contextlib.ExitStack() as stack:
        server, _ = stack.enter_context(image_of(program))
        browser = stack.enter_context(Browser(1280, 900))
        started = subprocess.Popen([sys.executable, PAGE, server.path], stdout=subprocess.PIPE, text=True)
        try:
            browser.open(started.stdout.readline().strip())
            connected(browser)
            choose(browser, "Till", "sold")
            typed_over(browser, "^sold", "^2")
        finally:
            started.kill()
            started.wait()
            started.stdout.close()
        browser.wait_text("#as-of", "start bin/page again")
        browser.press("s", "ctrl")
        browser.wait_text(".banner", "start bin/page again")
        same(browser.run("return document.querySelector('#source').value"), "sold  ^2")
        same([it for it in browser.log() if not any(part in it for part in GONE)], [])


TRIALS = (
    drafts_stay, a_full_server_is_shown, a_laptop_that_sleeps_goes_on, a_new_method_has_a_row, a_hidden_window_rests, a_file_leads_to_the_page, texts_are_texts, the_browser_keeps_others_out, only_looks_in_the_browser, the_end_of_the_page_is_told,
)
