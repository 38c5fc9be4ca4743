"""The page's picture of all CPUs over time: its numbers beside the package's, clicks and keys, and a saved page."""

import os
import re
import tempfile

from browser import OTHER, SIZES, TRACE, Page, quietly

import histdesk
import recordings
from histdesk.trace.losses import seconds
from histdesk.view.model import Side


class Timeline(Page):
    """The picture, with the tab open."""

    def setUp(self):
        super().setUp()
        self.show()

    def show(self):
        """Open the tab, and wait until all is there."""
        self.click("#tab-timeline")
        self.until(lambda: self.ask("timeline.overview !== null && timeline.pictures !== null"))

    def ask(self, expression, *words):
        """Return the value of an expression of the page."""
        return self.js(f"return {expression}", *words)

    def sight(self):
        """Return when the time in sight begins and ends, in microseconds since the first event."""
        return self.ask("[timeline.axis.low, timeline.axis.high]")

    def answered(self):
        """Wait until there is an answer for what is in sight."""
        both = """Math.abs(timeline.overview.low - timeline.axis.low) <= 1
            && Math.abs(timeline.overview.high - timeline.axis.high) <= 1"""
        self.until(lambda: self.ask(both))

    def run_with_a_wait(self):
        """Bring a run that ended a wait into sight, and return its CPU and line, and where its middle is."""
        found = self.js(
            """const { end, begin, line } = timeline.overview.runs;
            const at = [...begin.keys()].filter((run) => timeline.waitBefore(run) !== null)
                .sort((one, other) => end[other] - begin[other] - end[one] + begin[one])[0];
            timeline.goTo(begin[at], end[at]);
            return { cpu: timeline.overview.cpus[timeline.overview.runs.lane[at]], line: line[at] };"""
        )
        self.answered()
        place = self.js(
            """const { overview: { runs, cpus }, axis, top, tall } = timeline, { cpu, line } = arguments[0];
            const at = [...runs.line.keys()].find((run) => runs.line[run] === line && cpus[runs.lane[run]] === cpu);
            return { x: axis.x((runs.begin[at] + runs.end[at]) / 2), y: top + (runs.lane[at] + 0.5) * tall };""",
            found,
        )
        return found, place


class AllCpus(Timeline):
    """One recording."""

    @classmethod
    def setUpClass(cls):
        super().setUpClass()
        cls.overview = Side(cls.waits).overview

    def test_shares_are_those_of_the_package(self):
        runs = self.overview.runs
        width = self.ask("timeline.overview.width")
        cells = self.overview.cells(self.overview.edges(runs.first, runs.first + runs.length, width))
        self.assertEqual(self.ask("timeline.overview.cpus"), [lane.cpu for lane in runs.lanes])
        found = self.ask("timeline.overview.shares()")
        whole = runs.length * len(runs.lanes)
        for name in ("busy", "idle", "waited", "unknown"):
            self.assertAlmostEqual(found[name], int(getattr(cells, name).sum()) / whole, delta=0.01)
        self.assertEqual(self.ask("[...timeline.overview.most]"), cells.most.tolist())
        self.assertIn(f"{len(runs.lanes)} CPUs from ", self.text("#view-title"))

    def test_marks_of_the_axis_differ(self):
        """The marks of the axis have one unit, and the digits in which they differ."""
        marks = {
            (0, 100000, 200000): ["0 ms", "100 ms", "200 ms"],
            (2112000, 2114000, 2116000): ["2.112 s", "2.114 s", "2.116 s"],
            (1999998, 1999999, 2000000): ["1.999998 s", "1.999999 s", "2.000000 s"],
            (-500, 0, 500): ["-500 µs", "0 µs", "500 µs"],
            (0, 500, 1000, 1500): ["0.0 ms", "0.5 ms", "1.0 ms", "1.5 ms"],
            (0,): ["0 µs"],
            (2112500,): ["2.112500 s"],
        }
        script = "const { durations } = await import(`${path}numbers.js`); return durations(arguments[0]);"
        for times, texts in marks.items():
            self.assertEqual(self.js(script, list(times)), texts)

    def test_zoom_and_move(self):
        from selenium.webdriver.common.keys import Keys

        all_of_it = self.sight()
        self.click("[data-zoom='0.5']")
        low, high = self.sight()
        self.assertAlmostEqual(high - low, (all_of_it[1] - all_of_it[0]) / 2, delta=2)
        self.answered()
        self.find("#timeline-lanes").send_keys(Keys.ARROW_RIGHT)
        self.assertAlmostEqual(self.sight()[0], low + (high - low) / 10, delta=2)
        self.find("#timeline-lanes").send_keys("+")
        self.assertLess(self.sight()[1] - self.sight()[0], high - low)
        self.find("#timeline-lanes").send_keys("0")
        self.assertEqual(self.sight(), all_of_it)
        self.js(
            """document.getElementById("timeline-lanes").dispatchEvent(
            new WheelEvent("wheel", { deltaY: -500, bubbles: true, cancelable: true }))"""
        )
        self.assertLess(self.sight()[1] - self.sight()[0], all_of_it[1] - all_of_it[0])
        self.answered()

    def test_dragging_moves(self):
        from selenium.webdriver.common.action_chains import ActionChains

        self.click("[data-zoom='0.5']")
        low, _ = self.sight()
        canvas = self.find("#timeline-lanes")
        ActionChains(self.driver).move_to_element(canvas).click_and_hold().move_by_offset(60, 0).release().perform()
        self.assertLess(self.sight()[0], low)
        self.assertEqual(self.ask("[state.wait, timeline.axis.span * 2 > timeline.axis.most]"), [None, False])

    def test_a_run_leads_to_its_wait_and_back(self):
        found, place = self.run_with_a_wait()
        self.click_at(self.find("#timeline-lanes"), place["x"], place["y"])
        self.until(lambda: self.js("return lanes.scene !== null"))
        self.assertEqual(self.js("return [state.wait.cpu, state.wait.line]"), [found["cpu"], found["line"]])
        begin, end = self.js("return [state.wait.end - state.wait.micros, state.wait.end]")
        self.assertTrue(self.find("#wait").is_displayed())
        self.click("#wait-place")
        self.assertTrue(self.find("#timeline").is_displayed())
        low, high = self.sight()
        self.assertTrue(low <= begin and end <= high)
        self.assertEqual(self.js("return document.activeElement.id"), "timeline-lanes")
        self.assertFalse(self.find("#wait-place").is_displayed())

    def test_waiting_tasks_lead_to_the_longest_wait(self):
        place = self.js(
            """const { overview, axis, bottom, queue } = timeline, part = overview.most.indexOf(Math.max(...overview.most));
            return { x: axis.x(overview.timeOf(part + 0.5)), y: bottom - queue / 2, time: overview.timeOf(part + 0.5) };"""
        )
        self.click_at(self.find("#timeline-lanes"), place["x"], place["y"])
        self.until(lambda: self.js("return lanes.scene !== null"))
        size = self.overview.runs.length / 400
        begin, end = self.js("return [state.wait.end - state.wait.micros, state.wait.end]")
        self.assertTrue(begin <= place["time"] + size and place["time"] - size <= end)

    def test_keys(self):
        from selenium.webdriver.common.keys import Keys

        self.press("o", "a")
        self.assertEqual(self.js("return document.activeElement.id"), "timeline-lanes")
        self.press(Keys.ENTER)
        self.until(lambda: self.js("return lanes.scene !== null"))
        greatest = max(wait.micros for wait in self.waits if not wait.doubtful)
        self.assertEqual(self.js("return state.wait.micros"), greatest)

    def test_a_pointer_is_told_what_is_there(self):
        from selenium.webdriver.common.action_chains import ActionChains

        found, place = self.run_with_a_wait()
        canvas = self.find("#timeline-lanes")
        size = canvas.rect
        across, down = round(place["x"] - size["width"] / 2), round(place["y"] - size["height"] / 2)
        ActionChains(self.driver).move_to_element_with_offset(canvas, across, down).perform()
        text = self.text("#tip")
        self.assertIn(f"CPU {found['cpu']}: ", text)
        self.assertIn("click: why", text)
        self.assertNotEqual(self.find("#tip").get_attribute("role"), "status")

    def test_colours(self):
        """A task has one colour everywhere, and names on all colours can be read in both palettes."""
        script = """
            const bright = (shade) => shade.match(/\\d+/g).slice(0, 3).map((part) => part / 255)
                .map((part) => part <= 0.04045 ? part / 12.92 : ((part + 0.055) / 1.055) ** 2.4)
                .reduce((sum, part, at) => sum + part * [0.2126, 0.7152, 0.0722][at], 0);
            const contrast = (one, other) => {
                const [low, high] = [bright(one), bright(other)].sort((left, right) => left - right);
                return (high + 0.05) / (low + 0.05);
            };
            const shades = Array.from({ length: 12 }, (_, at) => colour(`run-${at}`));
            return [new Set(shades).size, Math.min(...shades.map((shade) => contrast(shade, colour("text")))),
                Math.min(...shades.map((shade) => contrast(shade, colour("lane"))))];"""
        for theme in ("light", "dark"):
            self.choose("#theme", theme)
            self.js("forgetStyles()")
            different, text, lane = self.js(script)
            self.assertEqual(different, 12)
            self.assertGreater(text, 4.5)
            self.assertGreater(lane, 1.8)
        colours = self.ask("Array.from({ length: 100 }, (_, pid) => timeline.colourOf(pid))")
        self.assertEqual(len(set(colours)), 12)
        self.assertEqual(self.ask("Array.from({ length: 100 }, (_, pid) => timeline.colourOf(pid))"), colours)

    def test_sizes(self):
        # What the browser noted during other tests doesn't count here.
        self.driver.get_log("browser")
        for width, height in (*SIZES, (390, 844)):
            self.resize(width, height)
            self.open(self.server.address)
            self.show()
            self.assertLessEqual(self.js("return document.documentElement.scrollWidth"), width)
            box = "const { left, right } = document.getElementById('timeline-lanes').getBoundingClientRect();"
            left, right = self.js(f"{box} return [left, right]")
            self.assertTrue(0 <= left and right <= width)
            self.assertGreater(right - left, width * 0.3)
            with tempfile.NamedTemporaryFile(suffix=".png") as file:
                self.assertTrue(self.driver.save_screenshot(file.name))
        errors = [entry for entry in self.driver.get_log("browser") if entry["level"] == "SEVERE"]
        self.assertEqual(errors, [])


class ManyRuns(Timeline):
    """A recording in which many runs lie in one part."""

    @classmethod
    def setUpClass(cls):
        folder = tempfile.TemporaryDirectory()
        cls.addClassCleanup(folder.cleanup)
        path = os.path.join(folder.name, "many.trace")
        with open(path, "wb") as file:
            file.write(recordings.simulated(1, 6000).text)
        cls.words = (path,)
        super().setUpClass()
        cls.overview = Side(cls.waits).overview

    def test_the_table_has_the_worst_stretches(self):
        self.click("#timeline-summary")
        worst = self.overview.worst(0, self.overview.runs.length)
        wanted = [
            [
                seconds(one.begin),
                *(f"{value:,}" for value in (one.cpu, one.end - one.begin, one.micros, one.most)),
            ]
            for one in worst
        ]
        self.assertGreater(len(wanted), 0)
        self.assertEqual(self.rows("#timeline-worst"), wanted)
        self.find("#timeline-worst button").click()
        low, high = self.sight()
        begin, end = (at - self.overview.runs.first for at in (worst[0].begin, worst[0].end))
        self.assertTrue(low <= begin and end <= high <= begin + 4 * (end - begin) + 12)

    def test_a_click_among_many_runs_goes_closer(self):
        place = self.js(
            """const { overview, axis, top, tall } = timeline;
            for (let cell = 0; cell < overview.task.length; cell++) {
                const lane = Math.floor(cell / overview.width), time = overview.timeOf(cell % overview.width + 0.5);
                if (!timeline.isSingle(lane, time)) return { x: axis.x(time), y: top + (lane + 0.5) * tall };
            }
            return null;"""
        )
        low, high = self.sight()
        self.click_at(self.find("#timeline-lanes"), place["x"], place["y"])
        self.assertLess(self.sight()[1] - self.sight()[0], (high - low) / 2)


class TwoRecordings(Timeline):
    """Two recordings: the chosen one is drawn."""

    words = (OTHER, TRACE)

    def test_the_chosen_one_is_drawn(self):
        for at, path in enumerate(self.words):
            overview = Side(quietly(histdesk.waits, path)).overview
            self.until_equal(overview.runs.length, lambda: self.ask("timeline.axis.most"))
            self.answered()
            most = self.ask("timeline.overview.most.reduce((most, one) => Math.max(most, one), 0)")
            self.assertEqual(most, int(overview.waiting.count.max()))
            if not at:
                self.press("v")


class SavedTimeline(Timeline):
    """The picture in a saved page, which has few parts."""

    @classmethod
    def setUpClass(cls):
        super().setUpClass()
        cls.folder = tempfile.TemporaryDirectory()
        cls.addClassCleanup(cls.folder.cleanup)
        cls.path = os.path.join(cls.folder.name, "page.html")
        save(cls.words[0], cls.path)

    def setUp(self):
        Page.setUp(self)
        self.open(f"file://{self.path}")
        self.show()

    def test_it_has_few_parts_and_says_so(self):
        self.assertEqual(self.ask("[timeline.overview.width, timeline.overview.low]"), [1024, 0])
        self.assertNotIn("parts only", self.text("#view-title"))
        for _ in range(9):
            self.click("[data-zoom='0.5']")
        self.until(lambda: re.search(r"1,024 parts only, and .*view .* has all", self.text("#view-title")))
        self.assertEqual(self.ask("[timeline.overview.width, timeline.overview.low]"), [1024, 0])

    def test_the_longest_wait_is_explained(self):
        from selenium.webdriver.common.keys import Keys

        self.find("#timeline-lanes").send_keys(Keys.ENTER)
        self.until(lambda: self.js("return lanes.scene !== null"))
        self.click("#wait-place")
        self.assertTrue(self.find("#timeline").is_displayed())


def save(trace, path):
    """Write a page as one file."""
    from histdesk.cli import view

    assert view.main([trace, "--save", path]) == 0
