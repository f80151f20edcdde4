"""The page in a browser: how fast a long run opens and zooms, that nothing is cut, and what the keys do. Skipped without Chromium."""

import os
import pathlib
import re
import subprocess
import tempfile
import unittest

from browser import CHROMIUM, Browser
from places import EXAMPLES, PROGRAM
from test_launcher import launch

LONG = """repeat 107 {
    try {
        finish {
            set p = 1;
            repeat 15 {
                at p async { async { at 0 { print here; } } finish { async { print (here * 10); } } }
                set p = (p + 1);
            }
        }
    } catch dead { print 999; }
}
"""
DEATHS = [1500, 4000, 4100, 9000, 16000]
KILLS = [word for place, moment in zip((3, 9, 12, 5, 14), DEATHS) for word in ("--kill", "%d@%d" % (place, moment))]
PLACES = 16
# Notes when the page was first seen whole, how long a key took to be answered on the screen, and what failed.
WATCH = """window.failed = [];
addEventListener("error", event => failed.push(event.message));
const painted = done => requestAnimationFrame(() => requestAnimationFrame(done));
addEventListener("load", () => painted(() => { window.opened = performance.now(); }));
addEventListener("keydown", event => painted(() => { window.took = performance.now() - event.timeStamp; }), true);
"""
SETTLED = "new Promise(done => requestAnimationFrame(() => requestAnimationFrame(done)))"
HEIGHT = "placeOf(chosen).y - main.scrollTop"


def waited():
    """The seconds since the machine began in which some program waited for a processor; None where the system does not count them."""
    try:
        return int(re.search(r"some .*total=(\d+)", pathlib.Path("/proc/pressure/cpu").read_text())[1]) / 1e6
    except OSError:
        return None


def taken(by_clock, by_processor, before):
    """By the clock; but where programs waited for one another meanwhile, the time that the page itself took of a processor."""
    is_busy = os.getloadavg()[0] > os.cpu_count() if before is None else waited() - before > 0.05 * by_clock
    return by_processor if is_busy else by_clock


@unittest.skipUnless(CHROMIUM, "there is no Chromium")
class Page(unittest.TestCase):
    @classmethod
    def setUpClass(cls):
        room = tempfile.TemporaryDirectory(prefix="rx10 page ")
        cls.addClassCleanup(room.cleanup)
        cls.room = pathlib.Path(room.name)
        words = [PROGRAM, "step", "--places", str(PLACES), "--seed", "7", *KILLS]
        trace = subprocess.run(words, input=LONG.encode(), stdout=subprocess.PIPE, timeout=60, check=True).stdout
        (cls.room / "long.trace").write_bytes(trace)
        (cls.room / "long.rx").write_text(LONG)
        cls.entries = trace.decode().split("history\n")[1].split("journal")[0].count("\n")
        for name, folder in [("long", cls.room), ("outlives", EXAMPLES)]:
            done = launch("draw", folder / (name + ".trace"), "--script", folder / (name + ".rx"), "-o", cls.room / (name + ".html"))
            assert done.returncode == 0, done.stderr
        cls.browser = Browser()
        cls.addClassCleanup(cls.browser.close)
        cls.browser.call("Page.addScriptToEvaluateOnNewDocument", source=WATCH)
        cls.browser.call("Performance.enable", timeDomain="threadTicks")

    def open(self, name, width=1400, dark=False):
        self.browser.size(width, 900, dark)
        self.browser.open(self.room / name)
        self.value(SETTLED)

    def value(self, words):
        return self.browser.evaluate(words)

    def press(self, key):
        self.browser.press(key)
        self.value(SETTLED)

    def tearDown(self):
        self.assertEqual(self.value("failed"), [])

    def processor_time(self):
        """The seconds that the page has taken of a processor since it began."""
        return next(it["value"] for it in self.browser.call("Performance.getMetrics")["metrics"] if it["name"] == "TaskDuration")

    def opening(self):
        before = waited()
        self.open("long.html")
        return taken(self.value("opened") / 1000, self.processor_time(), before)

    def zooming(self, key):
        before, begun = waited(), self.processor_time()
        self.press(key)
        return taken(self.value("took") / 1000, self.processor_time() - begun, before)

    def test_a_long_run_is_fast(self):
        self.open("long.html")
        if os.getloadavg()[0] > 2 * os.cpu_count():
            self.skipTest("the machine is too busy to measure on")
        self.assertGreaterEqual(self.entries, 20000)
        opened = min(self.opening() for _ in range(3))
        steps = {}
        for _ in range(3):
            for entry in (0, DEATHS[-1]):
                self.value("choose(%d)" % entry)
                for number, key in enumerate("---+++"):
                    steps.setdefault((entry, number), []).append(self.zooming(key))
        zoomed = max(map(min, steps.values()))
        print("%d entries over %d places: opened in %.2f s, zoomed in at most %.2f s" % (self.entries, PLACES, opened, zoomed))
        self.assertLess(opened, 2)
        self.assertLess(zoomed, 0.2)

    def test_zoom_keeps_the_place(self):
        self.open("long.html")
        for entry in (5000, DEATHS[-1]):
            self.value("choose(%d)" % entry)
            height = self.value(HEIGHT)
            for key in "--+-++":
                self.press(key)
                self.assertAlmostEqual(self.value(HEIGHT), height, delta=2)
        self.assertEqual(self.value("chosen"), DEATHS[-1])

    def test_nothing_is_cut(self):
        for width in (320, 400, 701, 1000, 1400, 2600):
            self.open("outlives.html", width)
            for key in "0-+++":
                self.press(key)
                self.assertLessEqual(self.value("main.scrollWidth - main.clientWidth"), 0, "%d, after %s" % (width, key))
                past = """[...box.querySelectorAll("text")].filter(it => {
                    const text = it.getBoundingClientRect(), strip = it.closest(".strip").getBoundingClientRect();
                    const isCut = text.right > strip.right + 1 || text.left < strip.left - 1;
                    return isCut || strip.right > main.getBoundingClientRect().right;
                }).map(it => it.textContent)"""
                self.assertEqual(self.value(past), [], "%d, after %s" % (width, key))

    def test_keys_and_search(self):
        self.open("long.html")
        for death in DEATHS:
            self.press("d")
            self.assertEqual(self.value("chosen"), death)
            self.assertTrue(self.value("0 < (%s) && (%s) < main.clientHeight" % (HEIGHT, HEIGHT)))
            self.assertIn("place", self.value("document.querySelector('li.on').textContent"))
        self.press("D")
        self.assertEqual(self.value("chosen"), DEATHS[-2])
        self.press("l")
        self.assertIn(" lost ", self.value("data.entries[chosen][LINE]"))
        self.press("/")
        for key in "t12":
            self.press(key)
        self.assertRegex(self.value("document.querySelector('.hits').textContent"), r"^\d+ hits$")
        self.press("Enter")
        self.assertTrue(re.search(r"\bt12\b", self.value("data.entries[chosen][WORDS] + data.entries[chosen][LINE]")))
        self.assertRegex(self.value("document.querySelector('.hits').textContent"), r"^\d+ of \d+ hits$")

    def test_the_pointer_and_the_dark(self):
        self.open("outlives.html", dark=True)
        self.assertLess(int(re.findall(r"\d+", self.value("getComputedStyle(document.body).backgroundColor"))[0]), 64)
        at = self.value("(it => [it.left + 5, it.top + 5])(document.querySelector('[data-t=\"1\"] .bar').getBoundingClientRect())")
        self.browser.move(*at)
        self.value(SETTLED)
        self.assertTrue(self.value("tip.textContent").startswith("t1 at place 1, started by t0 at 0"))
        self.assertFalse(self.value("tip.hidden"))

    def test_it_needs_nothing_else(self):
        self.open("outlives.html")
        self.assertEqual(self.value("performance.getEntriesByType('resource').length"), 0)
