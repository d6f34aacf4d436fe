"""For the tests: a headless Chromium, driven by the WebDriver protocol of its chromedriver."""
from __future__ import annotations

import base64
import functools
import json
import os
import shutil
import subprocess
import tempfile
import time
import urllib.error
import urllib.request

DRIVERS = ("chromedriver",)
BROWSERS = ("chromium", "chromium-browser", "google-chrome")
ELEMENT = "element-6066-11e4-a52e-4f735466cecf"
KEYS = {"Enter": "\ue007", "Tab": "\ue004", "Escape": "\ue00c", "ArrowRight": "\ue014", "ArrowLeft": "\ue012", "Control": "\ue009", "Shift": "\ue008"}


def found():
    """The paths of a driver and a browser, or None where one of them isn't there."""
    driver = next(filter(None, map(shutil.which, DRIVERS)), None)
    browser = next(filter(None, map(shutil.which, BROWSERS)), None)
    return (driver, browser) if driver and browser else None


@functools.lru_cache(maxsize=None)
def starts():
    """Whether they are there, and a browser starts here."""
    if not found():
        return False
    try:
        Browser().close()
    except (AssertionError, OSError):
        return False
    return True


class Browser:
    """A headless browser of its own, in light or dark colours."""

    def __init__(self, is_dark=False, size=(1400, 900)):
        driver, browser = found()
        self._folder = tempfile.TemporaryDirectory()
        self._log = open(os.path.join(self._folder.name, "log"), "w+b")
        self._driver = subprocess.Popen([driver, "--port=0"], stdout=self._log, stderr=subprocess.STDOUT)
        try:
            self._begin(browser, is_dark, size)
        except (AssertionError, OSError):
            self._driver.kill()
            self._driver.wait()
            raise

    def _begin(self, browser, is_dark, size):
        """Begins a session."""
        self._root = f"http://127.0.0.1:{self._port()}"
        words = ["--headless=new", "--no-sandbox", "--disable-gpu", "--disable-dev-shm-usage", "--host-resolver-rules=MAP * ~NOTFOUND, EXCLUDE 127.0.0.1"]
        words += [f"--window-size={size[0]},{size[1]}", f"--user-data-dir={self._folder.name}/profile"]
        words += ["--force-dark-mode", "--blink-settings=preferredColorScheme=0"] if is_dark else []
        asked = {"capabilities": {"alwaysMatch": {"goog:chromeOptions": {"binary": browser, "args": words}, "goog:loggingPrefs": {"browser": "ALL"}}}}
        self._session = f"/session/{self._ask('POST', '/session', asked)['sessionId']}"

    def _port(self):
        """The port that the driver says it has."""
        for _ in range(300):
            self._log.seek(0)
            for line in self._log.read().decode().splitlines():
                if "started successfully on port" in line:
                    return int(line.rstrip(".").split(" ")[-1])
            time.sleep(0.1)
        raise OSError("chromedriver doesn't start")

    def _ask(self, method, path, body=None):
        """The value that the driver answers."""
        data = None if body is None else json.dumps(body).encode()
        request = urllib.request.Request(self._root + path, data, {"Content-Type": "application/json"}, method=method)
        try:
            with urllib.request.urlopen(request, timeout=60) as answer:
                return json.load(answer)["value"]
        except urllib.error.HTTPError as fault:
            raise AssertionError(json.load(fault)["value"]["message"].splitlines()[0]) from None

    def _do(self, path, body=None, method="POST"):
        """Does something in this session."""
        return self._ask(method, self._session + path, {} if body is None and method == "POST" else body)

    def open(self, address):
        """Opens an address."""
        self._do("/url", {"url": address})

    @property
    def address(self):
        """The address that is open."""
        return self._do("/url", method="GET")

    def run(self, script, *words):
        """What a function's body in JavaScript answers."""
        return self._do("/execute/sync", {"script": script, "args": list(words)})

    def wait(self, script, *words):
        """What a function's body in JavaScript, which may wait, answers."""
        body = f"const done = arguments[arguments.length - 1]; (async () => {{ {script} }})().then(done, (fault) => done(`${{fault.stack}}`))"
        return self._do("/execute/async", {"script": body, "args": list(words)})

    def until(self, script, *words, seconds=30):
        """What the body answers, once that isn't false or nothing."""
        end = time.monotonic() + seconds
        while time.monotonic() < end:
            told = self.run(script, *words)
            if told:
                return told
            time.sleep(0.03)
        raise AssertionError(f"not so in {seconds} seconds: {script}")

    def find(self, selector):
        """An element."""
        return self._do("/element", {"using": "css selector", "value": selector})[ELEMENT]

    def click(self, selector):
        """Clicks on an element."""
        self._do(f"/element/{self.find(selector)}/click")

    def point(self, selector):
        """Moves the mouse over an element."""
        move = {"type": "pointerMove", "origin": {ELEMENT: self.find(selector)}, "x": 0, "y": 0, "duration": 0}
        self._do("/actions", {"actions": [{"type": "pointer", "id": "mouse", "actions": [move]}]})

    def press(self, *keys):
        """Presses keys one after another, or types a text."""
        actions = []
        for key in "".join(KEYS.get(key, key) for key in keys):
            actions += [{"type": "keyDown", "value": key}, {"type": "keyUp", "value": key}]
        self._do("/actions", {"actions": [{"type": "key", "id": "keys", "actions": actions}]})

    def resize(self, width, height):
        """Changes the window."""
        self._do("/window/rect", {"width": width, "height": height})

    def picture(self, file):
        """Writes what is to be seen as a PNG file."""
        with open(file, "wb") as out:
            out.write(base64.b64decode(self._do("/screenshot", method="GET")))

    def complaints(self):
        """What the browser's console said since it was asked last."""
        return [entry["message"] for entry in self._do("/se/log", {"type": "browser"})]

    def close(self):
        """Ends the browser and its driver."""
        try:
            self._ask("DELETE", self._session)
        finally:
            self._driver.terminate()
            self._driver.wait()
            self._log.close()
            self._folder.cleanup()
