"""A headless Chromium, driven by its own protocol over a pipe."""

import base64
import json
import os
import shutil
import subprocess
import tempfile
import time
import unittest
from pathlib import Path

SECONDS = 120
READY = "document.documentElement.dataset.ready !== undefined"
MIDDLE = """(() => {
  const it = document.querySelector(%s);
  it.scrollIntoView({block: "center", inline: "center"});
  const box = it.getBoundingClientRect();
  return [box.x + box.width / 2, box.y + box.height / 2];
})()"""


def path():
    """Returns a chromium, or skips the test."""
    for name in ("chromium", "chromium-browser", "google-chrome"):
        if shutil.which(name):
            return shutil.which(name)
    raise unittest.SkipTest("no chromium: apt-get install chromium")


class Page:
    """One page in one browser, opened where an expression says that it is ready. `errors` has what its scripts threw."""

    def __init__(self, case, url, width=1200, height=600, scheme=None, ready=READY):
        folder = tempfile.mkdtemp(prefix="chromium-")
        case.addCleanup(shutil.rmtree, folder, True)
        to_child, self.to = os.pipe()
        self.back, from_child = os.pipe()
        words = [path(), "--headless", "--no-sandbox", "--disable-gpu", f"--user-data-dir={folder}", "--remote-debugging-pipe"]
        line = 'exec 3<&"$0" 4>&"$1"; shift; exec "$@"'
        self.child = subprocess.Popen(
            ["bash", "-c", line, str(to_child), str(from_child), *words, f"--window-size={width},{height}"],
            pass_fds=(to_child, from_child), stdout=subprocess.DEVNULL, stderr=subprocess.DEVNULL,
        )
        os.close(to_child)
        os.close(from_child)
        case.addCleanup(self.close)
        self.rest, self.count, self.session, self.errors = b"", 0, None, []
        target = self.ask("Target.createTarget", url="about:blank")["targetId"]
        self.session = self.ask("Target.attachToTarget", targetId=target, flatten=True)["sessionId"]
        self.ask("Page.enable")
        self.ask("Runtime.enable")
        if scheme:
            self.ask("Emulation.setEmulatedMedia", features=[{"name": "prefers-color-scheme", "value": scheme}])
        self.ask("Emulation.setDeviceMetricsOverride", width=width, height=height, deviceScaleFactor=1, mobile=False)
        self.open(url, ready)

    def close(self):
        self.child.kill()
        self.child.wait()
        for number in (self.to, self.back):
            os.close(number)

    def ask(self, method, **words):
        """Sends a command, and returns what comes back for it."""
        self.count += 1
        message = {"id": self.count, "method": method, "params": words}
        os.write(self.to, json.dumps(message | ({"sessionId": self.session} if self.session else {})).encode() + b"\0")
        while True:
            while b"\0" not in self.rest:
                block = os.read(self.back, 1 << 16)
                if not block:
                    raise RuntimeError("chromium ended")
                self.rest += block
            text, _, self.rest = self.rest.partition(b"\0")
            came = json.loads(text)
            if came.get("method") == "Runtime.exceptionThrown":
                self.errors.append(json.dumps(came["params"]["exceptionDetails"])[:600])
            if came.get("id") == self.count:
                if "error" in came:
                    raise RuntimeError(f"{method}: {came['error']}")
                return came["result"]

    def open(self, url, ready=READY):
        """Opens a page, and waits until it says that it is ready."""
        self.ask("Page.navigate", url=url)
        self.until(ready)

    def value(self, text):
        """Returns what an expression is in the page, at once."""
        came = self.ask("Runtime.evaluate", expression=text, awaitPromise=True, returnByValue=True)
        if "exceptionDetails" in came:
            raise RuntimeError(came["exceptionDetails"]["exception"].get("description"))
        return came["result"].get("value")

    def run(self, text):
        """Returns what an expression is in the page, after pictures that were asked for are drawn."""
        return self.value(f"new Promise((done) => requestAnimationFrame(() => requestAnimationFrame(() => done({text}))))")

    def until(self, text):
        """Waits until an expression is true."""
        end = time.monotonic() + SECONDS
        while time.monotonic() < end:
            if self.ask("Runtime.evaluate", expression=text, returnByValue=True)["result"].get("value"):
                return
            time.sleep(0.05)
        raise TimeoutError(f"never true: {text}; {self.value('document.body.innerText')[:2000]}")

    def mouse(self, kind, x, y, **more):
        self.ask("Input.dispatchMouseEvent", type=kind, x=x, y=y, **more)

    def click(self, x, y):
        self.mouse("mouseMoved", x, y)
        for kind in ("mousePressed", "mouseReleased"):
            self.mouse(kind, x, y, button="left", clickCount=1)

    def press(self, place):
        """A click on the middle of what a selector finds."""
        self.click(*self.value(MIDDLE % json.dumps(place)))

    def type(self, place, text):
        """Puts the pointer into a field, empties it, and types a text."""
        self.value(f"(() => {{ const it = document.querySelector({json.dumps(place)}); it.focus(); it.select(); }})()")
        self.ask("Input.insertText", text=text)

    def picture(self, path):
        Path(path).write_bytes(base64.b64decode(self.ask("Page.captureScreenshot", format="png")["data"]))

    def wheel(self, x, y, across=0, down=0, modifiers=0):
        self.mouse("mouseWheel", x, y, deltaX=across, deltaY=down, modifiers=modifiers)

    def touch(self, *steps):
        """Fingers that go down at the first places, move over the others, and lift."""
        for k, places in enumerate(steps):
            points = [{"x": x, "y": y, "id": n} for n, (x, y) in enumerate(places)]
            self.ask("Input.dispatchTouchEvent", type="touchStart" if k == 0 else "touchMove", touchPoints=points)
        self.ask("Input.dispatchTouchEvent", type="touchEnd", touchPoints=[])

    def key(self, key):
        for kind in ("keyDown", "keyUp"):
            self.ask("Input.dispatchKeyEvent", type=kind, key=key, text=key if len(key) == 1 and kind == "keyDown" else "")
