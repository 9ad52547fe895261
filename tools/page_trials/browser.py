"""A browser for trials: chromium without a screen, driven through chromedriver by WebDriver's JSON over HTTP."""

import base64
import json
import os
import re
import shutil
import signal
import subprocess
import tempfile
import time
import urllib.error
import urllib.request

from trial_parts.patience import PATIENCE, until

# The key under which WebDriver names an element, and the keys of a keyboard that are no letters.
ELEMENT = "element-6066-11e4-a52e-4f735466cecf"
ENTER, ESCAPE, TAB, DOWN, UP, LEFT, RIGHT, END = "\ue007", "\ue00c", "\ue004", "\ue015", "\ue013", "\ue012", "\ue014", "\ue010"
HELD = {"ctrl": "\ue009", "shift": "\ue008", "alt": "\ue00a"}
# How often a driver is started at most.
STARTS = 10
# What a driver says of an element that is not there yet or no more.
PASSING = ("stale element reference", "no such element", "element not interactable", "element click intercepted")


class Failed(AssertionError):
    """The browser refused a command, or what was waited for did not come."""


def is_there():
    return bool(shutil.which("chromium") and shutil.which("chromedriver"))


def started():
    """A driver, and its port. It looks for a free one, which another program may take before it does: then it ends, and is started again."""
    pipes = {"stdout": subprocess.PIPE, "stderr": subprocess.DEVNULL, "text": True, "start_new_session": True}
    for _ in range(STARTS):
        driver = subprocess.Popen([shutil.which("chromedriver"), "--port=0"], **pipes)
        for line in driver.stdout:
            if found := re.search(r"started successfully on port (\d+)", line):
                return driver, int(found[1])
        driver.wait()
        driver.stdout.close()
    raise Failed("chromedriver does not start")


class Browser:
    def __init__(self, width=1280, height=900, is_dark=False):
        self.folder, self.session = tempfile.TemporaryDirectory(prefix="browser-"), ""
        self.driver, port = started()
        try:
            self.address = f"http://127.0.0.1:{port}"
            words = ["--headless=new", f"--window-size={width},{height}", f"--user-data-dir={self.folder.name}", "--no-first-run"]
            words += ["--disable-dev-shm-usage", "--force-device-scale-factor=1"] + (["--no-sandbox"] if os.geteuid() == 0 else [])
            options = {"args": words, "binary": shutil.which("chromium")}
            wanted = {"browserName": "chrome", "goog:chromeOptions": options, "goog:loggingPrefs": {"browser": "ALL"}}
            self.session = "/session/" + self.ask("POST", "/session", {"capabilities": {"alwaysMatch": wanted}})["sessionId"]
            self.ask("POST", "/timeouts", {"script": 1_000 * PATIENCE, "pageLoad": 1_000 * PATIENCE})
            self.look_at(width, height, is_dark)
        except BaseException:
            self.end()
            raise

    def __enter__(self):
        return self

    def __exit__(self, *_):
        self.end()

    def end(self):
        try:
            if self.session:
                self.ask("DELETE", "")
        except (Failed, OSError):
            pass
        # Of what the driver has started none goes on, which would write into the folder.
        os.killpg(self.driver.pid, signal.SIGKILL)
        self.driver.wait()
        self.driver.stdout.close()
        until(self.is_cleared, f"{self.folder.name} cannot be removed")
        self.folder.cleanup()

    def is_cleared(self):
        """Whether nothing is in the folder any more. What is being ended may have written into it meanwhile."""
        shutil.rmtree(self.folder.name, ignore_errors=True)
        return not os.path.exists(self.folder.name)

    def ask(self, how, path, body=None):
        data = None if body is None else json.dumps(body).encode()
        request = urllib.request.Request(self.address + self.session + path, data, {"Content-Type": "application/json"}, method=how)
        try:
            # The driver is on this machine, so no proxy is asked.
            with urllib.request.build_opener(urllib.request.ProxyHandler({})).open(request, timeout=PATIENCE) as reply:
                return json.load(reply)["value"]
        except urllib.error.HTTPError as error:
            told = json.load(error)["value"]
            raise Failed(f"{told['error']}: {told['message'].splitlines()[0]}") from None

    # ---- what a person does

    def open(self, address):
        self.ask("POST", "/url", {"url": address})

    def look_at(self, width, height, is_dark=False):
        """The size of the page, and its colours."""
        self.devtools("Emulation.setDeviceMetricsOverride", width=width, height=height, deviceScaleFactor=1, mobile=False)
        scheme = {"name": "prefers-color-scheme", "value": "dark" if is_dark else "light"}
        self.devtools("Emulation.setEmulatedMedia", features=[scheme])

    def click(self, selector):
        self.on(selector, "click", {})

    def write(self, selector, text):
        """Types behind what is there."""
        self.on(selector, "value", {"text": text})

    def on(self, selector, what, body):
        """Does something with an element, once it is there and nothing lies over it: a page may draw it anew in between."""
        ends = time.monotonic() + PATIENCE
        while True:
            try:
                return self.ask("POST", f"/element/{self.one(selector)}/{what}", body)
            except Failed as failed:
                if not str(failed).startswith(PASSING) or time.monotonic() > ends:
                    raise
            time.sleep(0.05)

    def press(self, keys, *held):
        """Presses keys where the focus is, with others held."""
        down = [{"type": "keyDown", "value": HELD[it]} for it in held]
        up = [{"type": "keyUp", "value": HELD[it]} for it in reversed(held)]
        pressed = [{"type": how, "value": key} for key in keys for how in ("keyDown", "keyUp")]
        self.ask("POST", "/actions", {"actions": [{"type": "key", "id": "keys", "actions": down + pressed + up}]})

    def enter(self, selector):
        """Goes into a frame; what is run and seen then is in that."""
        self.ask("POST", "/frame", {"id": {ELEMENT: self.one(selector)}})

    # ---- what a person sees

    def one(self, selector):
        return self.ask("POST", "/element", {"using": "css selector", "value": selector})[ELEMENT]

    def run(self, script, *arguments):
        return self.ask("POST", "/execute/sync", {"script": script, "args": list(arguments)})

    def texts(self, selector):
        return self.run("return [...document.querySelectorAll(arguments[0])].map(it => it.innerText)", selector)

    def text(self, selector):
        return self.run("return document.querySelector(arguments[0])?.innerText ?? ''", selector)

    def wait(self, script, *arguments, seconds=PATIENCE):
        """Waits until a script gives something true, and gives that."""
        ends = time.monotonic() + seconds
        while not (found := self.run(script, *arguments)):
            if time.monotonic() > ends:
                raise Failed(f"not within {seconds:.0f} seconds: {script} {arguments}; seen is {self.text('body')[:2000]!r}")
            time.sleep(0.05)
        return found

    def wait_text(self, selector, part):
        """Waits until an element that is seen has a text in it."""
        script = "return [...document.querySelectorAll(arguments[0])].some(it => it.offsetParent !== null && it.innerText.includes(arguments[1]))"
        self.wait(script, selector, part)

    def picture(self, path):
        with open(path, "wb") as file:
            file.write(base64.b64decode(self.ask("GET", "/screenshot")))

    def log(self):
        """What the console said since it was asked last."""
        return [f"{it['level']}: {it['message']}" for it in self.ask("POST", "/se/log", {"type": "browser"})]

    def devtools(self, command, **parameters):
        return self.ask("POST", "/goog/cdp/execute", {"cmd": command, "params": parameters})
