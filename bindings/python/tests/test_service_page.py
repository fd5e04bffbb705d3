"""The page in a browser, Chromium, which is told what to do through two pipes."""
from __future__ import annotations

import base64
import json
import os
import pathlib
import shutil
import signal
import subprocess
import sys
import tempfile
import time
import unittest
import urllib.parse
from typing import Any

from service_tools import Server, need_uvicorn

CHROMIUM: str | None = next(filter(None, map(shutil.which, ("chromium", "chromium-browser", "google-chrome"))), None)


class Browser:
    """A browser with one page. Commands are those of Chromium's DevTools protocol, each ended by a byte 0."""

    def __init__(self, width: int = 1000, height: int = 720) -> None:
        self.folder = tempfile.mkdtemp()
        given, self.asked = os.pipe()
        self.told, telling = os.pipe()
        # It reads descriptor 3 and writes descriptor 4.
        assert CHROMIUM
        shell = f'exec 3<&{given} 4>&{telling}; exec "$0" "$@"'
        self.process = subprocess.Popen(
            ["sh", "-c", shell, CHROMIUM, "--headless", "--no-sandbox", "--disable-gpu", "--remote-debugging-pipe",
             "--hide-scrollbars", f"--user-data-dir={self.folder}", f"--window-size={width},{height}", "about:blank"],
            pass_fds=(given, telling), stdout=subprocess.DEVNULL, stderr=subprocess.DEVNULL, start_new_session=True,
        )
        os.close(given)
        os.close(telling)
        self.read, self.number = b"", 0
        self.session: str | None = None
        self.events: list[dict[str, Any]] = []
        target = next(each for each in self.do("Target.getTargets")["targetInfos"] if each["type"] == "page")
        self.session = self.do("Target.attachToTarget", targetId=target["targetId"], flatten=True)["sessionId"]
        for domain in "Page", "Runtime", "Log":
            self.do(f"{domain}.enable")

    def do(self, method: str, **parameters: object) -> dict[str, Any]:
        """The result of a command; what comes before it is kept in `events`."""
        self.number += 1
        asked = {"id": self.number, "method": method, "params": parameters}
        if self.session:
            asked["sessionId"] = self.session
        os.write(self.asked, json.dumps(asked).encode() + b"\0")
        while True:
            while b"\0" not in self.read:
                read = os.read(self.told, 1 << 20)
                if not read:
                    raise AssertionError("the browser ended")
                self.read += read
            text, _, self.read = self.read.partition(b"\0")
            message = json.loads(text)
            if message.get("id") == self.number:
                if "error" in message:
                    raise AssertionError(message["error"])
                result: dict[str, Any] = message["result"]
                return result
            self.events.append(message)

    def value(self, expression: str) -> Any:
        """What an expression of the page is, when its promise is kept."""
        told = self.do("Runtime.evaluate", expression=expression, awaitPromise=True, returnByValue=True)
        if "exceptionDetails" in told:
            raise AssertionError(told["exceptionDetails"])
        return told["result"].get("value")

    def until(self, expression: str, wanted: object) -> None:
        """Waits until an expression is what is wanted, and fails if it isn't after ten seconds."""
        for _ in range(200):
            found = self.value(expression)
            if found == wanted:
                return
            time.sleep(0.05)
        raise AssertionError(f"{expression} is {found!r}, not {wanted!r}")

    def key(self, name: str, text: str = "") -> None:
        for kind in ("keyDown", "keyUp"):
            with_text = {"text": text} if text and kind == "keyDown" else {}
            self.do("Input.dispatchKeyEvent", type=kind, key=name, **with_text)

    def shot(self, path: str | pathlib.Path) -> None:
        """Writes a picture of the whole page, also of what is below the window."""
        size = self.do("Page.getLayoutMetrics")["cssContentSize"]
        clip = {"x": 0, "y": 0, "width": size["width"], "height": size["height"], "scale": 1}
        told = self.do("Page.captureScreenshot", captureBeyondViewport=True, clip=clip)
        pathlib.Path(path).write_bytes(base64.b64decode(told["data"]))

    def close(self) -> None:
        os.close(self.asked)
        os.close(self.told)
        try:
            os.killpg(self.process.pid, signal.SIGKILL)
        except ProcessLookupError:
            pass
        self.process.wait()
        shutil.rmtree(self.folder, ignore_errors=True)


TOLD = "document.getElementById('told')?.textContent"
TITLES = "[...document.querySelectorAll('h2')].map(each => each.textContent)"
TYPED = """(text => {
    const box = document.getElementById('query');
    box.value = text;
    box.dispatchEvent(new Event('input'));
})"""
ORDERED = """(order => {
    const box = document.getElementById('order');
    box.value = order;
    box.dispatchEvent(new Event('change'));
})"""
MARKED = "[...document.querySelectorAll('mark')].map(each => each.textContent.toLowerCase())"
PICK = "document.querySelector('.pick[data-of=\\'%s\\']')"


@unittest.skipUnless(CHROMIUM, "there is no Chromium")
class Page(unittest.TestCase):
    def setUp(self) -> None:
        need_uvicorn()
        self.server = Server("--example")
        self.addCleanup(self.server.__exit__)
        self.browser = Browser()
        self.addCleanup(self.browser.close)

    def go(self, path: str = "") -> None:
        self.browser.do("Page.navigate", url=f"http://127.0.0.1:{self.server.port}/{path}")

    def test_page(self) -> None:
        """Counts, a picked facet, a bad query, more hits, words that are marked, the keyboard, a title with markup."""
        browser = self.browser
        self.go()
        browser.until(TOLD, "81 hits")
        browser.value(f"{TYPED}('war')")
        browser.until(TOLD, "5 hits")
        self.assertEqual(browser.value(MARKED), ["war"] * 5)
        novel = PICK % json.dumps(["shelf", "novel"], separators=(",", ":"))
        self.assertEqual(browser.value(f"{novel}.textContent"), "novel2")
        browser.value(f"{novel}.focus()")
        browser.key("Enter", "\r")
        browser.until(TOLD, "2 hits")
        self.assertEqual(browser.value(f"{novel}.getAttribute('aria-pressed')"), "true")
        browser.until(f"document.activeElement === {novel}", True)
        browser.value(f"{novel}.click()")
        browser.until(TOLD, "5 hits")
        browser.value(f"{TYPED}('war OR')")
        browser.until(f"{TOLD}.startsWith('Syntax: ')", True)
        browser.value(f"{TYPED}('')")
        browser.until(TOLD, "81 hits")
        browser.value("document.getElementById('more').click()")
        browser.until("document.querySelectorAll('li').length", 20)
        browser.value(f"{ORDERED}('pages,falling')")
        browser.until(f"{TITLES}[0]", "Les Misérables")
        browser.value("document.activeElement.blur()")
        browser.key("/", "/")
        browser.until("document.activeElement.id", "query")
        markup = "<script>document.title='lost'</script><img src=x onerror=\"document.title='lost'\"> & co"
        self.assertEqual(self.server.ask("POST", "/documents", {"title": markup, "shelf": "<b>"})[0], 201)
        browser.value(f"{TYPED}('co')")
        browser.until(TOLD, "1 hit, 1 without pages")
        browser.value(f"{ORDERED}('id,falling')")
        browser.until(f"{TITLES}[0]", markup)
        self.assertEqual(browser.value("[document.title, document.querySelectorAll('img').length]"), ["Search", 0])
        # The browser notes the bad query's 400, too.
        faults = [each for each in browser.events if each["method"] in ("Runtime.exceptionThrown", "Log.entryAdded")]
        self.assertEqual([each for each in faults if "400" not in str(each)], [])

    def test_policy(self) -> None:
        """Script and style of others don't run, and the page fetches from nowhere else."""
        browser = self.browser
        self.go()
        browser.until(TOLD, "81 hits")
        browser.value("const own = document.createElement('script'); own.textContent = 'document.title = 1';"
                      "document.body.append(own)")
        self.assertEqual(browser.value("document.title"), "Search")
        fetched = browser.value("fetch('http://example.org/').then(() => 'fetched', () => 'refused')")
        self.assertEqual(fetched, "refused")

    def test_state(self) -> None:
        """A query in the address is that of the page, and the page fits a telephone."""
        browser = self.browser
        browser.do("Emulation.setDeviceMetricsOverride", width=360, height=640, deviceScaleFactor=2, mobile=True)
        self.go("?q=moor&order=year,rising")
        browser.until(TITLES, ["Wuthering Heights", "The Hound of the Baskervilles"])
        self.assertEqual(browser.value("document.documentElement.scrollWidth <= innerWidth"), True)
        self.assertEqual(browser.value("document.getElementById('box').open"), False)
        for scheme, ground in ("light", "rgb(255, 255, 255)"), ("dark", "rgb(22, 24, 28)"):
            browser.do("Emulation.setEmulatedMedia", features=[{"name": "prefers-color-scheme", "value": scheme}])
            self.assertEqual(browser.value("getComputedStyle(document.body).backgroundColor"), ground)

    def picked(self, field: str, value: str) -> str:
        return PICK % json.dumps([field, value], separators=(",", ":"))

    def test_picks(self) -> None:
        """A facet that was picked can be taken off, also if no hit has it; Back and Forward, and a shared address."""
        browser = self.browser
        self.go()
        browser.until(TOLD, "81 hits")
        novel, english = self.picked("shelf", "novel"), self.picked("language", "English")
        browser.value(f"{novel}.click()")
        browser.until(f"{novel}?.getAttribute('aria-pressed')", "true")
        many = browser.value(TOLD)
        browser.value(f"{TYPED}('nosuchwordanywhere')")
        browser.until(TOLD, "0 hits")
        self.assertEqual(browser.value(f"{novel}.textContent"), "novel0")
        shared = browser.value("location.search")
        browser.value(f"{novel}.click()")
        browser.until(f"{novel}", None)
        self.assertEqual(browser.value(TOLD), "0 hits")
        # Back to the pick, to the list without words, and to the beginning; what was typed in one go is one step.
        browser.value("history.back()")
        browser.until(f"{novel}?.textContent", "novel0")
        browser.value("history.back()")
        browser.until(TOLD, many)
        self.assertEqual(browser.value("document.getElementById('query').value"), "")
        browser.value("history.back()")
        browser.until(TOLD, "81 hits")
        browser.value("history.forward()")
        browser.until(TOLD, many)
        self.go(shared)
        browser.until(f"{novel}?.textContent", "novel0")
        self.assertEqual(browser.value("document.getElementById('query').value"), "nosuchwordanywhere")
        # With a query that is refused, too.
        self.go("?q=war+OR&pick=language%3AEnglish&pick=title%3Ax&pick=none%3Ay")
        browser.until(f"{TOLD}?.startsWith('Syntax: ')", True)
        browser.value(f"{english}.click()")
        browser.until(f"{english}", None)
        self.assertNotIn("pick", browser.value("location.search"))

    def test_enter(self) -> None:
        """Enter searches at once, an order is in the address, and each search is one request."""
        browser = self.browser
        self.go()
        browser.until(TOLD, "81 hits")
        browser.do("Network.enable")
        browser.events.clear()
        browser.value("const box = document.getElementById('query'); box.focus(); box.value = 'war'")
        browser.key("Enter", "\r")
        browser.until(TOLD, "5 hits")
        sent = [each["params"] for each in browser.events if each["method"] == "Network.requestWillBeSent"]
        asked = [each["request"]["url"] for each in sent]
        self.assertEqual(len(asked), 1, asked)
        self.assertIn("groups=shelf%3A12%2Clanguage%3A12", asked[0])
        browser.value(f"{ORDERED}('pages,falling')")
        browser.until(f"{TITLES}[0]", "Ἰλιάς")
        self.assertEqual(browser.value("location.search"), "?q=war&order=pages%2Cfalling")
        browser.value("history.back()")
        browser.until("document.getElementById('order').value", "id,falling")

    def test_marks(self) -> None:
        """Words are marked as the index finds them: no operators, no names of fields, nothing that is excluded."""
        documents = [
            {"title": "War or peace", "author": "Title Word",
             "about": "title of a WAR: ΣΟΦΟΣ, peace and war, left hand"},
            {"title": ["new word", "order"], "about": "word order, new order"},
        ]
        self.assertEqual(self.server.ask("POST", "/documents", documents)[0], 201)
        browser = self.browser
        for query, wanted in [
            ("war OR nothing", ["War", "WAR", "war"]), ("title:war", ["War"]),
            ("war AND peace", ["War", "peace", "WAR", "peace", "war"]),
            ("+war -title:order NOT author:peace", ["War", "WAR", "war"]), ('"and war"', ["and", "war"]),
            ("σοφος", ["ΣΟΦΟΣ"]), ("left-hand", ["left", "hand"]), ('"word order"', ["word", "order"]),
            ("war -(peace -left) year:>3", ["War", "WAR", "war"]),
            ('about:"a war" (title:peace)', ["peace", "a", "WAR"]),
        ]:
            with self.subTest(query=query):
                self.go("?" + urllib.parse.urlencode({"q": f"+id:>81 +({query})"}))
                browser.until(f"document.readyState === 'complete' && {TOLD}?.includes('hit')", True)
                found = browser.value("[...document.querySelectorAll('mark')].map(each => each.textContent)")
                self.assertEqual(found, wanted)

    def test_names(self) -> None:
        """Each input has a label, the page a heading, and texts their own direction."""
        self.go()
        self.browser.until(TOLD, "81 hits")
        self.assertEqual(self.browser.value("document.querySelector('h1').textContent"), "Search")
        labelled = ("[...document.querySelectorAll('input, select')]"
                    ".map(each => each.labels[0]?.textContent.trim().split(/\\s/)[0])")
        self.assertEqual(self.browser.value(labelled), ["Query", "Order", "Token"])
        self.assertEqual(self.server.ask("POST", "/documents", {"title": "שלום war"})[0], 201)
        self.go("?q=שלום")
        self.browser.until(TOLD, "1 hit")
        self.assertEqual(self.browser.value("getComputedStyle(document.querySelector('h2')).direction"), "rtl")

    def test_token(self) -> None:
        """The page asks for a token where reads need one."""
        with tempfile.TemporaryDirectory() as folder:
            token = pathlib.Path(folder, "token")
            token.write_text("abcdefghijklmnop")
            with Server("--example", "--token-file", token, "--token-reads") as self.server:
                self.go()
                self.browser.until("document.getElementById('secret')?.hidden", False)
                self.browser.value("const box = document.getElementById('token'); box.value = 'abcdefghijklmnop';"
                                   "box.dispatchEvent(new Event('change'))")
                self.browser.until(TOLD, "81 hits")
                self.assertEqual(self.browser.value("document.getElementById('secret').hidden"), True)


def shots(folder: str) -> None:
    """Writes the screenshots of docs/SERVICE.md."""
    with Server("--example") as server:
        browser = Browser(1000, 620)
        try:
            browser.do("Page.navigate", url=f"http://127.0.0.1:{server.port}/?q=war")
            browser.until(TOLD, "5 hits")
            browser.shot(pathlib.Path(folder, "service.png"))
        finally:
            browser.close()


if __name__ == "__main__":
    if sys.argv[1:2] == ["shots"]:
        shots(sys.argv[2])
    else:
        unittest.main()
