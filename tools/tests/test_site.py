"""dev/site: the site that `make docs` makes, opened in a browser without a window where there is one."""

import html
import json
import os
import shutil
import subprocess
import sys
import tempfile
import time
import unittest
from html.parser import HTMLParser
from pathlib import Path
from urllib.parse import unquote

from support import DEV

BROWSERS = ("chromium", "chromium-browser", "google-chrome")
SECONDS = 150


class Browser:
    """A browser without a window, driven by its own protocol over a pair of pipes."""

    def __init__(self, path, profile):
        self.read_end, theirs_out = os.pipe()
        theirs_in, self.write_end = os.pipe()
        words = [path, "--headless", "--no-sandbox", "--disable-gpu", "--remote-debugging-pipe", f"--user-data-dir={profile}"]
        self.process = subprocess.Popen(
            ["bash", "-c", f'exec 3<&{theirs_in} 4>&{theirs_out} "$@"', "browser", *words],
            pass_fds=(theirs_in, theirs_out), stdout=subprocess.DEVNULL, stderr=subprocess.DEVNULL,
        )
        os.close(theirs_in)
        os.close(theirs_out)
        self.rest, self.number = b"", 0
        target = self.call("Target.createTarget", url="about:blank")["targetId"]
        self.session = self.call("Target.attachToTarget", targetId=target, flatten=True)["sessionId"]

    def call(self, method, **params):
        """The result of a call; what else the browser says is passed over."""
        self.number += 1
        message = {"id": self.number, "method": method, "params": params}
        if method.partition(".")[0] != "Target":
            message["sessionId"] = self.session
        os.write(self.write_end, json.dumps(message).encode() + b"\0")
        while True:
            while b"\0" not in self.rest:
                self.rest += os.read(self.read_end, 65536) or b'{"id": -1}\0'
            text, _, self.rest = self.rest.partition(b"\0")
            answer = json.loads(text)
            if answer.get("id") == -1:
                raise RuntimeError("the browser ended")
            if answer.get("id") == self.number:
                return answer.get("result", {})

    def value(self, expression):
        return self.call("Runtime.evaluate", expression=expression, returnByValue=True).get("result", {}).get("value")

    def open(self, address):
        """Opens a page, and waits until it is loaded."""
        self.call("Page.navigate", url=address)
        self.wait("document.readyState == 'complete' && location.href.startsWith(%s)" % json.dumps(address.partition("?")[0]))

    def wait(self, expression):
        """The value of an expression once it counts as true; the last one where that takes too long."""
        end = time.monotonic() + SECONDS
        while True:
            value = self.value(expression)
            if value or time.monotonic() > end:
                return value
            time.sleep(0.05)

    def close(self):
        self.process.kill()
        self.process.wait()
        os.close(self.read_end)
        os.close(self.write_end)


class Links(HTMLParser):
    """The links and the anchors of a page."""

    def __init__(self, text):
        super().__init__()
        self.links, self.anchors = [], set()
        self.feed(text)

    def handle_starttag(self, tag, attrs):
        attributes = dict(attrs)
        self.anchors.update(attributes[key] for key in ("id", "name") if attributes.get(key))
        self.links += [attributes[key] for key in ("href", "src") if attributes.get(key)]


class Site(unittest.TestCase):
    @classmethod
    def setUpClass(cls):
        cls.path = next(filter(None, map(shutil.which, BROWSERS)), None)
        cls.folder = tempfile.TemporaryDirectory()
        cls.site = Path(cls.folder.name) / "site"
        ran = subprocess.run(
            [sys.executable, str(DEV / "site"), "-o", str(cls.site)], stdout=subprocess.PIPE, stderr=subprocess.STDOUT, encoding="utf-8",
        )
        if "skipped" in ran.stdout:
            raise unittest.SkipTest(ran.stdout.strip())
        assert ran.returncode == 0, ran.stdout

    @classmethod
    def tearDownClass(cls):
        cls.folder.cleanup()

    def opened(self):
        """The browser, closed after the test."""
        if not self.path:
            self.skipTest("no chromium")
        profile = tempfile.TemporaryDirectory(ignore_cleanup_errors=True) if sys.version_info >= (3, 10) else tempfile.TemporaryDirectory()
        browser = Browser(self.path, profile.name)
        self.addCleanup(profile.cleanup)
        self.addCleanup(browser.close)
        return browser

    def test_search(self):
        """Search finds words of the language, also those that indexes of English leave out, without a server."""
        browser = self.opened()
        for word in ("until", "since"):
            browser.open(f"{self.site.as_uri()}/index.html?q={word}")
            found = browser.wait("[...document.querySelectorAll('.md-search-result__link')].map(it => it.href).join(' ')")
            self.assertIn("docs/reference/language.html", found or "", word)

    def test_links(self):
        pages = {it: Links(it.read_text(encoding="utf-8")) for it in self.site.rglob("*.html")}
        self.assertGreater(len(pages), 40)
        lost = []
        for page, found in pages.items():
            for link in found.links:
                name, _, anchor = unquote(html.unescape(link)).partition("#")
                if "://" in link or link.startswith(("mailto:", "data:", "/")) or page.name == "404.html":
                    continue
                target = (page.parent / name.partition("?")[0]).resolve() if name else page
                target = target / "index.html" if target.is_dir() else target
                if not target.exists() or (anchor and target in pages and anchor not in pages[target].anchors):
                    lost.append(f"{page.relative_to(self.site)}: {link}")
        self.assertEqual(lost, [])

    def test_bars(self):
        """A bar in a table's code is shown as it is written, and splits no cell."""
        texts = {it: it.read_text(encoding="utf-8") for it in self.site.rglob("*.html")}
        self.assertEqual([it.name for it, text in texts.items() if "\\|" in text], [])
        self.assertIn("<code>F[0,2] (p || r)</code>", texts[self.site / "docs/reference/scopes.html"])

    def test_colours(self):
        """Specifications have colours."""
        text = (self.site / "index.html").read_text(encoding="utf-8")
        self.assertIn('<span class="k">FTSPEC</span>', text)
        self.assertIn('<span class="kt">bool</span>', text)

    def test_menu(self):
        """Measuring is a page of its own, and not an example."""
        text = (self.site / "index.html").read_text(encoding="utf-8")
        examples = text[text.index("Examples") :]
        self.assertLess(examples.index("</nav>"), examples.index("bench/index.html"))

    def test_narrow(self):
        """No page scrolls sideways on a screen of 390 pixels."""
        browser = self.opened()
        browser.call("Emulation.setDeviceMetricsOverride", width=390, height=800, deviceScaleFactor=1, mobile=True)
        wide = []
        for page in sorted(self.site.rglob("*.html")):
            browser.open(page.as_uri())
            width = browser.value("document.documentElement.scrollWidth")
            if width != 390:
                wide.append(f"{page.relative_to(self.site)}: {width}")
        self.assertEqual(wide, [])


if __name__ == "__main__":
    unittest.main()
