"""The page, driven in a headless Chromium: what is added offline stands pending in its group and nowhere else."""

from __future__ import annotations

import contextlib
import importlib.util
import os
import shutil
import sys
import time
import unittest
import urllib.error
import urllib.request
from collections.abc import Callable
from typing import Any

from children import HERE, Child

Json = Any

WAIT = 20.0
LOSING = 180.0
"""Seconds to wait where half of the requests and of the responses are lost: four pulls of five fail then, and the group
waits up to two seconds between two."""
PROGRAMS = ("chromium", "chromedriver")


def lacks() -> str | None:
    """What is missing here to drive a browser; None: nothing."""
    if importlib.util.find_spec("selenium") is None:
        return "selenium (Debian: python3-selenium)"
    return next((f"{name} (Debian: chromium-driver)" for name in PROGRAMS if shutil.which(name) is None), None)


def browser() -> Any:
    """A Chromium without a window."""
    from selenium import webdriver
    from selenium.webdriver.chrome.service import Service

    options = webdriver.ChromeOptions()
    options.binary_location = str(shutil.which("chromium"))
    for word in ("headless=new", "no-sandbox", "disable-gpu", "disable-dev-shm-usage", "window-size=1400,760"):
        options.add_argument(f"--{word}")  # type: ignore[no-untyped-call]
    return webdriver.Chrome(service=Service(str(shutil.which("chromedriver"))), options=options)


class Shown(unittest.TestCase):
    """A page that is shown."""

    def setUp(self) -> None:
        self.child = Child(sys.executable, HERE / "page", "--port", "0")
        self.addCleanup(self.child.close)
        self.address = self.child.line()


class Asked(Shown):
    """What the page is asked."""

    def status(self, path: str, body: bytes | None = None, **headers: str) -> int:
        request = urllib.request.Request(self.address + path, body, headers)
        try:
            with urllib.request.urlopen(request, timeout=WAIT) as response:
                return int(response.status)
        except urllib.error.HTTPError as error:
            with error:
                return error.code

    def test_requests_of_others(self) -> None:
        good = b'{"client": "A", "name": "add", "args": {"id": "x", "text": "milk"}}'
        self.assertEqual(self.status("/do", good), 200)
        self.assertEqual(self.status("/do", good, origin="http://example.org"), 400)
        self.assertEqual(self.status("/", None, host="example.org"), 403)
        for path, body in [
            ("/do", b"{"), ("/do", b"[]"), ("/do", good.replace(b'"A"', b'"X"')), ("/do", good.replace(b"add", b"set")),
            ("/do", good.replace(b'"milk"', b"7")), ("/do", good.replace(b"milk", b"m" * 201)), ("/do", b"x" * 5000),
            ("/do", good.replace(b'"A"', b"[]")), ("/nowhere", b"{}"),
            ("/offline", b'{"side": 2, "offline": true}'), ("/lose", b'{"lose": "1"}'),
        ]:
            self.assertEqual(self.status(path, body), 400, (path, body[:80]))


class Driven(Shown):
    """The page, driven."""

    def setUp(self) -> None:
        if (lacking := lacks()) is not None:
            self.skipTest(f"there is no {lacking}")
        super().setUp()
        self.driver = browser()
        self.addCleanup(self.driver.quit)
        self.driver.get(self.address)

    def holds(self, what: str, holds: Callable[[], bool], seconds: float = WAIT) -> None:
        """Waits until it holds; the page may change while it is looked at."""
        end = time.monotonic() + seconds
        while time.monotonic() < end:
            with contextlib.suppress(Exception):
                if holds():
                    return
            time.sleep(0.05)
        self.fail(f"not within {seconds} seconds: {what}")

    def find(self, css: str) -> list[Any]:
        return list(self.driver.find_elements("css selector", css))

    def items(self, letter: str, kind: str = "li") -> list[str]:
        """The texts of a client's list, in the order of the alphabet."""
        return sorted(one.text for one in self.find(f"#list-{letter} {kind} span"))

    def shows(self, letter: str, *texts: str, kind: str = "li") -> None:
        self.holds(f"{letter} shows {texts} ({kind})", lambda: self.items(letter, kind) == sorted(texts))

    def add(self, letter: str, text: str) -> None:
        self.find(f"#text-{letter}")[0].send_keys(text + "\n")

    def picture(self, name: str) -> None:
        """A picture of the page, where the variable PICTURES names a folder for it."""
        folder = os.environ.get("PICTURES")
        if folder:
            time.sleep(0.3)
            self.driver.save_screenshot(f"{folder}/{name}.png")

    def test_offline_and_back(self) -> None:
        self.holds("three lists", lambda: len(self.find("#list-A, #list-B, #list-C")) == 3)
        self.add("A", "milk")
        self.shows("C", "milk")
        self.shows("A", kind="li.pending")
        self.find("#offline-0")[0].click()
        self.holds("group 1 is offline", lambda: "(offline)" in self.find(".side .name")[0].text)
        self.add("A", "bread")
        self.shows("A", "bread", kind="li.pending")
        self.shows("B", "bread", kind="li.pending")
        self.add("B", "tea")
        self.add("C", "jam")
        self.holds("jam is on the server", lambda: "jam" in self.find("#rows")[0].text)
        self.shows("B", "milk", "bread", "tea")
        self.find("#list-B input")[0].click()
        self.shows("A", "milk", "bread", "tea", kind="li.pending")
        self.shows("C", "milk", "jam")
        self.holds("the picture has three mutations", lambda: len(self.find(".side .mutation")) == 3)
        self.picture("page")
        self.find("#offline-0")[0].click()
        self.shows("C", "milk", "bread", "tea", "jam")
        for letter in "ABC":
            self.shows(letter, "milk", "bread", "tea", "jam")
            self.shows(letter, kind="li.pending")
        self.holds("C shows that milk is done", lambda: self.items("C", "li.done") == ["milk"])

    def lose(self, part: str) -> None:
        self.find(f'#lose option[value="{part}"]')[0].click()

    def test_losses(self) -> None:
        self.holds("the server's switch", lambda: len(self.find("#lose")) == 1)
        self.lose("0.5")
        texts = [f"thing {n}" for n in range(5)]
        for text in texts:
            self.add("B", text)
        self.holds("all come to C", lambda: self.items("C") == texts, LOSING)
        self.lose("0.15")
        self.holds("nothing is pending", lambda: not self.items("A", "li.pending") and not self.find(".mutation"), 60)
        self.find("#list-C button")[0].click()
        self.holds("A shows that one is gone", lambda: self.items("A") == texts[1:], 60)

    def test_a_refused_mutation_is_told(self) -> None:
        self.holds("the list", lambda: len(self.find("#list-A")) == 1)
        self.driver.execute_script('make("A", "toggle", {id: "none"})')
        self.holds("why", lambda: "REFUSED" in self.find("#told")[0].text)


if __name__ == "__main__":
    unittest.main()
