#!/usr/bin/env python3
"""The page of the control port, in a headless Chromium where one is installed. The last line is 'N passed, M
failed'."""
import json
import re
import threading
import time
import unittest

import bridges
import browsers
import units
from timelines import stand_in, swap

PAGE = bridges.FOLDER / "dabplan_bridge/page.html"
# What the page says, as one text.
TEXT = "(document.body ? document.body.innerText : '')"


class Feeder:
    """Gives a bridge frames in real time, in a thread, until it is to stop."""

    def __init__(self, feed, frames):
        self._feed, self._frames = feed, iter(frames)
        self._is_over = threading.Event()
        self.given = 0
        self._thread = threading.Thread(target=self._run, daemon=True)
        self._thread.start()

    def stop(self):
        """Stops it."""
        self._is_over.set()
        self._thread.join()

    def _run(self):
        due = time.monotonic()
        for frame in self._frames:
            due += 0.024
            time.sleep(max(0.0, due - time.monotonic()))
            if self._is_over.is_set():
                return
            self._feed.through([frame])
            self.given += 1


class Source(unittest.TestCase):
    """The file."""

    def test_nothing_comes_from_elsewhere(self):
        text = PAGE.read_text(encoding="utf-8")
        self.assertEqual(re.findall(r"(?i)https?://|//cdn|@import|<link[^>]*stylesheet|<script[^>]*src|url\(", text),
                         [])

    def test_nothing_of_others_is_taken_for_markup(self):
        self.assertEqual(re.findall(r"innerHTML|outerHTML|insertAdjacentHTML|document\.write|eval\(",
                                    PAGE.read_text(encoding="utf-8")), [])


@unittest.skipUnless(browsers.program(), "no chromium: the page is not opened")
class Shown(bridges.Case):
    """The page over a bridge that runs."""

    def begun(self, script, options=""):
        """A bridge with a plan, and its page."""
        self.compile(self.folder, "plan", script)
        self.port = bridges.free_port()
        feed = self.started(f"run plan.code --in - --out - --control {self.port} {options}")
        self.addCleanup(feed.job.kill)
        with bridges.connected(self.port):
            pass
        return feed

    def browser(self, **options):
        """A browser with the page."""
        found = browsers.Browser(**options)
        self.addCleanup(found.__exit__)
        found.open(f"http://127.0.0.1:{self.port}/")
        return found

    def shows(self, browser, text, seconds=30):
        """Asserts that the page comes to say a text."""
        self.assertTrue(browser.until(f"{TEXT}.includes({json.dumps(text)})", seconds),
                        f"{text}: {browser.value(TEXT)}")

    def test_a_change_is_announced_and_made(self):
        """Labels are those of the multiplexer; one of them is no markup."""
        feed = self.begun(bridges.MOVES.replace("notice 24", "notice 240").replace("commit in 24", "commit in 240"),
                          "--time 21:59:50")
        own = bridges.fics(self.own(800))
        label = bridges.fib("35 01 C221" + b"<b>One</b>      ".hex() + "E000")
        frames = [bridges.edi_packet(number, fic[:32] + label + bridges.EMPTY_FIB if number % 4 else fic) for number,
                  fic in enumerate(own)]
        browser = self.browser()
        self.shows(browser, "waiting")
        feeder = Feeder(feed, frames)
        self.shows(browser, "following")
        self.shows(browser, "<b>One</b> (C221)")
        self.shows(browser, "24 of 864 capacity units")
        self.shows(browser, "Announced: swap in ")
        self.assertEqual(browser.value("document.getElementById('swap').textContent.match(/at count (\\d+)/)[1]"),
                         "260")
        self.assertEqual(browser.value("document.querySelectorAll('#next tbody th')[0].textContent"), "2")
        self.assertEqual(browser.value("document.querySelectorAll('#current tbody th')[0].textContent"), "1")
        self.assertEqual(browser.value("document.getElementById('news').textContent"), "A change is announced.")
        # 24 units at 0 of 864 are 2.78 % of the bar.
        self.assertAlmostEqual(float(browser.value("document.querySelector('#current .bar span').style.width")[:-1]),
                               2.78, places=2)
        self.assertTrue(browser.until("document.querySelectorAll('#current tbody th')[0].textContent === '2'"))
        self.assertTrue(browser.until("document.getElementById('news').textContent !== ''"))
        self.assertEqual(browser.value("document.querySelectorAll('#current b').length"), 0)
        feeder.stop()
        feed.end()

    def test_a_contact_is_switched_by_the_keyboard(self):
        feed = self.begun(bridges.CONTACTS, "--log l")
        feeder = Feeder(feed, self.stream("edi", 3000))
        browser = self.browser()
        self.shows(browser, "following")
        switch = "document.querySelector('[data-contact=\"3\"]')"
        self.assertEqual(browser.value(f"{switch}.getAttribute('role')"), "switch")
        self.assertEqual(browser.value(f"{switch}.getAttribute('aria-checked')"), "false")
        # From the start of the page by the tabulator alone.
        for _ in range(30):
            browser.key("Tab", 9)
            if browser.value(f"document.activeElement === {switch}"):
                break
        self.assertTrue(browser.value(f"document.activeElement === {switch}"))
        browser.key(" ", 32, " ")
        self.assertTrue(browser.until(f"{switch}.getAttribute('aria-checked') === 'true'"), browser.value(TEXT))
        said = browser.value("document.getElementById('answer').textContent")
        found = re.fullmatch(r"Contact 3 closed: from frame (\d+) on, count (\d+)", said)
        self.assertIsNotNone(found, said)
        self.assertEqual(int(found[1]) % 5000, int(found[2]))
        self.assertTrue(browser.until("document.querySelectorAll('#current tbody th')[0].textContent === '2'"))
        feeder.stop()
        feed.end()
        self.assertIn(b"\ncontact 3 closed\n", self.read("l"))

    def test_the_changes_of_the_next_day(self):
        """Two changes, 10,000 and 150,000 frames ahead at the start: 4 minutes, and an hour; where none are known
        nothing is said."""
        self.program = stand_in(self.program, self.folder)
        later = swap(150_000, time="23:00:00.000", dropped=["<b>sub 2</b>", "service C221"], added=[])
        feed = self.begun(bridges.CONTACTS, "--time 21:59:50")
        feeder = Feeder(feed, self.stream("edi", 3000))
        browser = self.browser()
        self.shows(browser, "following")
        self.assertTrue(browser.value("document.getElementById('coming').hidden"))
        feeder.stop()
        feed.end()
        self.write("says", swap(10_000) + later)
        feed = self.begun(bridges.CONTACTS, "--time 21:59:50")
        feeder = Feeder(feed, self.stream("edi", 3000))
        browser = self.browser()
        self.shows(browser, "Changes of the next day")
        cells = "[...document.querySelectorAll('#changes td')].map((each) => each.textContent)"
        self.assertTrue(browser.until(f"{cells}[1] === '3 min'"), browser.value(f"{cells}"))
        self.assertEqual(browser.value(cells), [
            "22:00:00", "3 min", "sub 1 at 0 size 24 eep 3-A", "sub 2 at 24 size 24 eep 3-A", "23:00:00", "59 min",
            "<b>sub 2</b>; service C221", ""])
        self.assertEqual(browser.value("document.querySelectorAll('#changes b').length"), 0)
        self.shows(browser, "Next line of the script")
        feeder.stop()
        feed.end()

    def test_a_token_is_asked_for(self):
        self.write("token", "s3cret")
        feed = self.begun(bridges.CONTACTS, "--token-file token")
        feeder = Feeder(feed, self.stream("edi", 3000))
        browser = self.browser()
        self.shows(browser, "following")
        self.assertFalse(browser.value("document.getElementById('token-row').hidden"))
        browser.value("document.querySelector('[data-contact=\"3\"]').click()")
        self.shows(browser, "Contact 3 closed: refused: a token is needed")
        browser.value("document.getElementById('token').value = 's3cret'")
        browser.value("document.querySelector('[data-contact=\"3\"]').click()")
        self.shows(browser, "Contact 3 closed: from frame ")
        feeder.stop()
        feed.end()

    def test_an_alarm_and_a_plan_that_is_held(self):
        feed = self.begun(bridges.CONTACTS)
        feed.through(self.stream("edi", 40))
        browser = self.browser()
        self.shows(browser, "following")
        self.assertTrue(browser.value("document.getElementById('alarms').hidden"))
        feeder = Feeder(feed, bridges.made("edi", self.own(3000, 1000), 1000))
        self.shows(browser, "holding")
        self.shows(browser, "what is on air is held until counts and clock agree")
        self.assertEqual(browser.value("document.title"), "! Ensemble E1C5")
        self.assertEqual(browser.value("document.getElementById('alarms').getAttribute('role')"), "alert")
        browser.value("window.confirm = () => true")
        browser.value("document.querySelector('[data-order=\"/anew\"]').click()")
        self.shows(browser, "Begin the plan anew: from frame 0 on")
        self.assertTrue(browser.until("document.getElementById('alarms').hidden"), browser.value(TEXT))
        self.shows(browser, "following")
        feeder.stop()
        feed.end()

    def test_what_is_old_is_marked(self):
        feed = self.begun(bridges.CONTACTS)
        feed.through(self.stream("edi", 40))
        browser = self.browser()
        self.shows(browser, "following")
        self.shows(browser, "no frame for ")
        self.assertFalse(browser.value("document.body.classList.contains('stale')"))
        feed.job.kill()
        self.assertTrue(browser.until("document.body.classList.contains('stale')", 10))
        self.shows(browser, "Nothing comes from the bridge: what is below is old.")
        self.assertTrue(browser.value("[...document.querySelectorAll('button')].every((each) => each.disabled)"))

    def test_narrow_and_wide_light_and_dark(self):
        feed = self.begun(bridges.CONTACTS)
        feed.through(self.stream("edi", 40))
        for is_dark, back in ((False, "rgb(246, 247, 249)"), (True, "rgb(13, 17, 23)")):
            browser = self.browser(is_dark=is_dark)
            self.shows(browser, "following")
            self.assertEqual(browser.value("getComputedStyle(document.body).backgroundColor"), back)
            for width in (320, 390, 768, 1280, 2560):
                browser.size(width, 900)
                self.assertTrue(browser.until(f"document.documentElement.clientWidth === {width}"))
                self.assertLessEqual(browser.value("document.documentElement.scrollWidth"), width)
        feed.end()

    def test_each_thing_has_a_name(self):
        """What a screen reader says of buttons, regions and fields."""
        feed = self.begun(bridges.CONTACTS)
        feed.through(self.stream("edi", 40))
        browser = self.browser()
        self.shows(browser, "following")
        nodes = browser.call("Accessibility.getFullAXTree")["nodes"]
        named = [(node["role"]["value"],
                  node.get("name", {}).get("value", "")) for node in nodes if not node.get("ignored")]
        roles = ("switch", "button", "region", "heading", "textbox", "table")
        self.assertEqual([node for node in named if node[0] in roles and not node[1]], [])
        self.assertIn(("switch", "Contact 3 open"), named)
        self.assertIn(("heading", "On air"), named)
        self.assertIn(("heading", "Ensemble E1C5"), named)
        feed.end()


if __name__ == "__main__":
    units.main()
