"""A browser that opens the page of tools/view, and what tests do there.

It needs chromium, chromedriver and selenium, and numpy; see `missing`.
"""

import os
import shutil
import subprocess
import sys
import time
import unittest
import warnings

# Nothing is written beside the sources.
sys.dont_write_bytecode = True

TESTS = os.path.dirname(os.path.dirname(os.path.realpath(__file__)))
ROOT = os.path.dirname(TESTS)
PAGES = os.path.join(ROOT, "python", "histdesk", "view", "page")
VIEW = os.path.join(ROOT, "tools", "view")
sys.path[:0] = [os.path.join(ROOT, "python"), os.path.join(TESTS, "library"), os.path.join(TESTS, "model")]

import histdesk

TRACE, OTHER = (os.path.join(ROOT, "examples", name) for name in ("recipes.trace", "recipes-before.trace"))
SIZES = ((1280, 720), (3840, 2160))
# How long a page may take to answer, in seconds, on a machine that has other work.
PATIENCE = 30
# What scripts of these tests use of the page's modules. A saved page knows its modules by their names, without a path.
MODULES = """
const names = ["canvas", "keys", "lanes", "state", "strike", "time", "timeline", "worst"];
const path = document.getElementById("saved") ? "" : "./";
const modules = await Promise.all(names.map((name) => import(`${path}${name}.js`)));
const page = Object.assign({}, ...modules);
const { choose, colour, forgetStyles, KEYS, lanes, openTab, overTime, rem, side, state, strikes, timeline, worst } = page;
"""


def missing():
    """Return what is needed and isn't there; None if all is."""
    for module in ("numpy", "selenium"):
        try:
            __import__(module)
        except ImportError:
            return module
    return next((name for name in ("chromium", "chromedriver") if not shutil.which(name)), None)


class Server:
    """tools/view, and the address that it prints. It opens no browser, unless one is named."""

    def __init__(self, *words, browser=None):
        command = [sys.executable, VIEW, *words, *([] if browser else ["--no-browser"])]
        env = {**os.environ, "BROWSER": browser or ""}
        self.process = subprocess.Popen(command, stdout=subprocess.PIPE, stderr=subprocess.DEVNULL, text=True, env=env)
        self.address = self.process.stdout.readline().split()[0]

    def end(self):
        self.process.terminate()
        self.process.wait()
        self.process.stdout.close()


def browser():
    """Return a browser without a window."""
    from selenium import webdriver
    from selenium.webdriver.chrome.service import Service

    options = webdriver.ChromeOptions()
    options.binary_location = shutil.which("chromium")
    for word in ("--headless=new", "--no-sandbox", "--disable-gpu", "--disable-dev-shm-usage"):
        options.add_argument(word)
    options.set_capability("goog:loggingPrefs", {"browser": "ALL"})
    return webdriver.Chrome(options=options, service=Service(shutil.which("chromedriver")))


def quietly(call, *words, **named):
    """Call a function without warnings of losses, and return what it returns."""
    with warnings.catch_warnings():
        warnings.simplefilter("ignore", histdesk.LossWarning)
        return call(*words, **named)


def shown(value):
    """Return a figure as the page shows it."""
    return "-" if value is None else f"{value:,.1f}" if isinstance(value, float) else f"{value:,}"


def figures_of(waits, doubtful=False):
    """Return the figures of waits, as the page shows them."""
    counts = waits.counts("kind", doubtful)
    row = counts.whole()
    # A page shows the mean of numbers as JavaScript rounds it.
    told = [row.count, row.mean, row.p50, row.p90, row.p99, counts.percentile("99.9") if row.count else None, row.max]
    return [*map(shown, told), shown(waits.doubtful)]


class Page(unittest.TestCase):
    """A page in the browser, with what tests do there."""

    words = (TRACE,)

    @classmethod
    def setUpClass(cls):
        cls.driver = Page.shared = getattr(Page, "shared", None) or browser()
        cls.server = Server(*cls.words)
        cls.waits = quietly(histdesk.waits, cls.words[0])

    @classmethod
    def tearDownClass(cls):
        cls.server.end()

    def setUp(self):
        self.resize(*SIZES[0])
        self.open(self.server.address)

    def open(self, address):
        self.driver.get(address)
        self.until_ready()

    def until_ready(self):
        """Wait until the page shows figures."""
        script = "return document.body.classList.contains('ready') && document.getElementById('figures').tBodies[0].rows.length"
        self.until(lambda: self.js(script))

    def resize(self, width, height):
        words = {"width": width, "height": height, "deviceScaleFactor": 1, "mobile": False}
        self.driver.execute_cdp_cmd("Emulation.setDeviceMetricsOverride", words)

    def js(self, script, *words):
        """Run a script that knows what the page's modules export, and return its value."""
        return self.driver.execute_script(f"return (async () => {{{MODULES}{{{script}\n}}}})()", *words)

    def until(self, holds):
        """Wait until a function returns something true, and return that."""
        end = time.monotonic() + PATIENCE
        while True:
            found = holds()
            if found or time.monotonic() > end:
                self.assertTrue(found)
                return found
            time.sleep(0.02)

    def until_equal(self, wanted, ask):
        """Wait until an answer is the one that is wanted."""
        end = time.monotonic() + PATIENCE
        while (found := ask()) != wanted and time.monotonic() < end:
            time.sleep(0.02)
        self.assertEqual(found, wanted)

    def find(self, chosen):
        from selenium.webdriver.common.by import By

        return self.driver.find_element(By.CSS_SELECTOR, chosen)

    def click(self, chosen):
        """Click something that may be drawn anew meanwhile."""
        from selenium.common.exceptions import StaleElementReferenceException

        def clicked():
            try:
                self.find(chosen).click()
                return True
            except StaleElementReferenceException:
                return False

        self.until(clicked)

    def press(self, *keys):
        from selenium.webdriver.common.action_chains import ActionChains

        ActionChains(self.driver).send_keys(*keys).perform()

    def text(self, chosen):
        return self.js("return document.querySelector(arguments[0]).textContent", chosen)

    def rows(self, chosen):
        """Return the cells of a table's body, as texts."""
        script = """return [...document.querySelector(arguments[0]).tBodies[0].rows].map(
            (row) => [...row.cells].map((cell) => cell.textContent))"""
        return self.js(script, chosen)

    def figures(self):
        """Return the figures of each side."""
        return [row[1:] for row in self.rows("#figures")]

    def bars(self):
        """Return what the page says of each bar: its bounds, and how many waits it has."""
        labels = self.js(
            "return [...document.querySelectorAll('#bars [role=option]')].map((bar) => bar.getAttribute('aria-label'))"
        )
        return [label.split(": ", 1) for label in labels]

    def click_at(self, element, x, y):
        """Click so far to the right of an element's left edge, and below its top."""
        from selenium.webdriver.common.action_chains import ActionChains

        size = element.rect
        across, down = round(x - size["width"] / 2), round(y - size["height"] / 2)
        ActionChains(self.driver).move_to_element_with_offset(element, across, down).click().perform()

    def click_bar(self, bar):
        room = self.find(f"#bar-{bar} .room")
        self.click_at(room, room.rect["width"] / 2, 4)

    def typed(self, chosen, text):
        box = self.find(chosen)
        box.clear()
        box.send_keys(text)

    def choose(self, chosen, value):
        script = """const box = document.querySelector(arguments[0]);
            box.value = arguments[1];
            box.dispatchEvent(new Event("change"));"""
        self.js(script, chosen, value)

    def listed(self):
        """Return the rows of the list that are in sight."""
        script = """return [...document.querySelectorAll(".tall .row")].map(
            (row) => [...row.children].map((cell) => cell.textContent))"""
        return self.js(script)

    def count_listed(self):
        # The header is a row, too.
        return int(self.js("return document.getElementById('worst-rows').getAttribute('aria-rowcount')")) - 1


class Striking(Page):
    """What tests of strikes do, and know."""

    def tick(self, text):
        self.js('document.querySelector(`[data-strike="${CSS.escape(arguments[0])}"]`).click()', text)

    def assert_struck(self, *texts):
        """Test that the page shows what the package says of a recording without these events."""
        difference = quietly(histdesk.diff, TRACE, without=list(texts))
        self.until_equal([figures_of(difference.before), figures_of(difference.after)], self.figures)
        rows = {f"{row.key[0]} {row.key[1]} {row.key[2]}": row for row in difference.table("task")}
        pair = lambda was, now: shown(was) if was == now else f"{shown(was)} → {shown(now)}"
        wanted = {}
        for key, row in rows.items():
            sides = [
                [getattr(side, name) if side.count else None for name in ("count", "p50", "p99", "max")]
                for side in (row.before, row.after)
            ]
            wanted[key] = [pair(*both) for both in zip(*sides)]
        self.until_equal(wanted, lambda: {row[0]: row[1:] for row in self.rows("#rows")})


def bounds(power):
    """Return the bounds of a power of two, as the page shows them."""
    return f"above {power.low - 1:,} to {power.high:,} µs" if power.low > 1 else f"up to {power.high:,} µs"
