"""What the page asks, and shows: pages that ask one server, each with strikes of its own; and answers that are late or fail."""

import os
import pathlib
import tempfile

from browser import OTHER, SIZES, TRACE, Page, Server, Striking, figures_of, quietly

import histdesk


class OneServer(Striking):
    """Pages that ask one server, each with strikes of its own."""

    # examples/recipes.trace has 116 switches, of which 13 run task 24650, and 7 wakings by task 12304. Without these, two waits
    # of task 24659 have 467 us instead of 3 and 4.
    SWITCHES, STRUCK = 116, {"sched_switch if next_pid == 24650": 13, "sched_waking if common_pid == 12304": 7}
    SWITCH, WAKING = STRUCK

    def strike(self, text):
        """Strike events by a filter that is typed."""
        event, condition = text.split(" if ")
        self.choose("#strike-event", event)
        self.typed("#strike-text", condition)
        self.find("#strike-any button").click()
        self.assert_struck(text)

    def assert_all_agree(self):
        """Test that figures, the trigger's table and the script are those of the strikes that are ticked, and return these."""
        struck = self.js("return state.strikes.map((one) => strikes.key(one))")
        ticked = "return [...document.querySelectorAll('#ticks :checked')].map((one) => one.dataset.strike)"
        self.assertEqual(sorted(self.js(ticked)), sorted(struck))
        if struck:
            self.assert_struck(*struck)
        else:
            self.until_equal([figures_of(self.waits)], self.figures)
        self.click("#tab-table")
        hits = self.SWITCHES - sum(self.STRUCK[text] for text in struck if text == self.SWITCH)
        self.until(lambda: f" rows of {hits} hits, " in self.text("#table-summary"))
        self.click("#tab-script")
        events = sum(self.STRUCK[text] for text in struck)
        self.until_equal(
            events, lambda: self.text("#script-text").startswith("load") and self.text("#script-text").count("\nstrike ")
        )
        self.click("#tab-strike")
        return struck

    def test_a_page_that_is_loaded_again(self):
        self.strike(self.SWITCH)
        self.assertEqual(self.assert_all_agree(), [self.SWITCH])
        self.driver.refresh()
        self.until_ready()
        self.assertEqual(self.assert_all_agree(), [])

    def test_back_and_forward(self):
        self.strike(self.SWITCH)
        self.driver.get("about:blank")
        for move in (self.driver.back, self.driver.forward, self.driver.back):
            move()
            if self.driver.current_url == self.server.address:
                self.until_ready()
                # A browser may have kept the page as it was.
                self.assert_all_agree()

    def in_another_tab(self):
        """Open the page in another tab, which is closed at the end."""
        first = self.driver.current_window_handle
        self.driver.switch_to.new_window("tab")
        second = self.driver.current_window_handle

        def close():
            self.driver.switch_to.window(second)
            self.driver.close()
            self.driver.switch_to.window(first)

        self.addCleanup(close)
        self.resize(*SIZES[0])
        self.open(self.server.address)
        return first, second

    def test_two_tabs(self):
        self.strike(self.WAKING)
        first, second = self.in_another_tab()
        self.assertEqual(self.assert_all_agree(), [])
        self.strike(self.SWITCH)
        self.assertEqual(self.assert_all_agree(), [self.SWITCH])
        self.driver.switch_to.window(first)
        self.assertEqual(self.assert_all_agree(), [self.WAKING])
        # A filter chooses among the waits that are new here, and they are explained as they are here.
        self.press("v")
        self.typed("#filter", "next_pid > 0")
        after = quietly(histdesk.diff, TRACE, without=self.WAKING).after
        self.until(lambda: self.js("return state.filter"))
        self.until_equal(figures_of(after), lambda: self.figures()[1])
        fresh = "[...worst.numbers.keys()].filter((row) => worst.numbers[row] >= side().parts[0].count)"
        rows = self.js(f"return {fresh}")
        self.assertEqual(len(rows), 2)
        for row in rows:
            self.js("worst.choose(arguments[0], true)", row)
            self.until(lambda: " waited 467 us" in self.text("#wait-text"))
            self.until(lambda: "without the struck events" in self.text("#wait-note"))
        self.driver.switch_to.window(second)
        self.assertEqual(self.assert_all_agree(), [self.SWITCH])

    def test_a_browser_is_led_to_the_page_by_a_file(self):
        with tempfile.TemporaryDirectory() as folder:
            browser, told = os.path.join(folder, "browser"), pathlib.Path(folder, "told")
            pathlib.Path(browser).write_text(f'#!/bin/sh\necho "$1" >{told}.part && mv {told}.part {told}\n', encoding="utf-8")
            os.chmod(browser, 0o755)
            server = Server(*self.words, browser=browser)
            self.addCleanup(server.end)
            self.until(told.exists)
            self.driver.get(told.read_text(encoding="utf-8").strip())
            self.until_equal(server.address, lambda: self.driver.current_url)
            self.until_ready()


# What a test lets go wrong between page and server: `wrong` has, by the first part of a path, how requests fail: "gone" if no
# server answers, a number for that HTTP status, and "held" if the answer waits until `release` is called.
WRONG = """window.wrong = {};
    const server = window.fetch, held = [];
    window.release = () => { window.wrong = {}; held.splice(0).forEach((go) => go()); };
    window.asked = [];
    window.fetch = async (path, ...words) => {
        const name = path.split("?")[0], how = window.wrong[name];
        window.asked.push(name);
        if (how === "gone") throw new TypeError("Failed to fetch");
        if (how === "held") await new Promise((go) => held.push(go));
        if (how > 0) return new Response('{"error": "MemoryError: no room"}', { status: how });
        return server(path, ...words);
    };"""
GONE = "could not be read: the server does not answer; if it has ended, start it again"
ROOMLESS = "could not be read: MemoryError: no room"


class Wrong(Page):
    """What the page shows while an answer is awaited, if it fails, and after later ones."""

    words = (OTHER, TRACE)

    def setUp(self):
        added = self.driver.execute_cdp_cmd("Page.addScriptToEvaluateOnNewDocument", {"source": WRONG})
        self.addCleanup(self.driver.execute_cdp_cmd, "Page.removeScriptToEvaluateOnNewDocument", added)
        super().setUp()
        self.until(lambda: self.rows("#rows"))

    def let(self, **wrong):
        """Let requests go wrong, by their paths; all others succeed."""
        self.js("release(); Object.assign(window.wrong, arguments[0])", wrong)

    def line(self, panel):
        """Return the line in a panel about what it waits for, or what could not be read; None if there is none."""
        return self.js("return document.querySelector(`#${arguments[0]} > .progress`)?.firstChild.textContent.trim()", panel)

    def assert_answered(self, *panels):
        """Test that no panel waits, and that nothing is said to be wrong."""
        busy = "return arguments[0].map((id) => document.getElementById(id).ariaBusy ?? 'false')"
        self.until_equal(["false"] * len(panels), lambda: self.js(busy, panels))
        self.assertEqual([self.line(panel) for panel in panels], [None] * len(panels))
        self.assertEqual(self.text("#status"), "")

    def filtered(self):
        """Return the figures of waits of tasks with PIDs above 21605, as the page shows them."""
        sides = (quietly(histdesk.waits, path) for path in self.words)
        return [figures_of(side[side.array.pid > 21605]) for side in sides]

    def test_panels_say_that_they_wait(self):
        typed = """const box = document.getElementById("filter");
            box.value = "next_pid > 21605";
            box.dispatchEvent(new Event("input"));"""
        tick = "document.querySelector('#ticks input').click();"
        for path, panels, act, what in (
            ("filter", ["histogram", "worst", "time"], typed, "the waits that pass the filter"),
            ("strike", ["strike", "histogram", "worst", "time"], tick, "the waits without these events"),
            ("trigger", ["table"], "openTab('table');", "the trigger's table"),
            ("script", ["script"], "openTab('script');", "the script"),
            ("overview", ["timeline"], "openTab('timeline'); timeline.draw();", "what each CPU ran"),
            ("wait", ["wait"], "worst.choose(0, true);", "what ran during this wait"),
        ):
            script = f"""const [ids, path] = arguments, panels = ids.map((id) => document.getElementById(id));
                const stateOf = (panel) => [panel.ariaBusy, panel.querySelector(":scope > .progress")?.textContent ?? null];
                window.wrong[path] = "held";
                {act}
                const seen = [panels.map(stateOf)];
                for (const pause of [150, 500]) {{
                    await new Promise((resume) => setTimeout(resume, pause));
                    seen.push(panels.map(stateOf));
                }}
                return seen;"""
            with self.subTest(path=path):
                seen = self.js(script, panels, path)
                states = ["true", None], ["true", None], ["true", f"reading {what} …"]
                self.assertEqual(seen, [[state] * len(panels) for state in states])
                self.js("release()")
                self.assert_answered(*panels)

    def test_recordings_are_asked_for_again(self):
        for wrong in ("held", 500):
            script = f"window.wrong['waits.bin'] = {wrong!r};"
            added = self.driver.execute_cdp_cmd("Page.addScriptToEvaluateOnNewDocument", {"source": script})
            self.driver.get(self.server.address)
            self.driver.execute_cdp_cmd("Page.removeScriptToEvaluateOnNewDocument", added)
            wanted = "reading the recordings …" if wrong == "held" else f"The recordings {ROOMLESS}"
            self.until_equal(wanted, lambda: self.line("main"))
            self.assertEqual(self.find("#main").get_attribute("aria-busy"), "true" if wrong == "held" else "false")
            self.js("release()")
            if wrong != "held":
                self.click("#main > .progress button")
            self.until_ready()
            self.assert_answered("main")

    def test_all_cpus_are_asked_for_again(self):
        from selenium.webdriver.common.keys import Keys

        shares = "return timeline.overview?.shares().busy"
        open_tab, other_recording = lambda: self.click("#tab-timeline"), lambda: self.press("v")
        for wrong, why, act in (("gone", GONE, open_tab), (500, ROOMLESS, other_recording)):
            self.let(overview=wrong)
            act()
            self.until_equal(f"What each CPU ran {why}", lambda: self.line("timeline"))
            self.assertEqual(self.find("#timeline").get_attribute("aria-busy"), "false")
            self.assertEqual(self.text("#view-title"), "")
            self.assertEqual(self.text("#status"), f"What each CPU ran {why}")
            self.assertIsNone(self.js(shares))
            self.let()
            # Whoever looks at it again sees it.
            self.click("#tab-time")
            self.click("#tab-timeline")
            self.until(lambda: self.js(shares))
            self.assert_answered("timeline")
            self.assertIn("% busy", self.text("#view-title"))
        # And so does whoever presses the button.
        self.let(overview=500)
        self.click("[data-zoom='0.5']")
        self.until_equal(f"What each CPU ran {ROOMLESS}", lambda: self.line("timeline"))
        self.let()
        self.js("document.querySelector('#timeline > .progress button').focus()")
        self.press(Keys.ENTER)
        self.until(lambda: self.js(shares))
        self.assert_answered("timeline")
        self.assertEqual(self.js("return document.activeElement.id"), "timeline-lanes")

    def test_what_failed_does_not_stay_after_later_answers(self):
        self.let(overview="gone", filter="gone")
        self.click("#tab-timeline")
        self.typed("#filter", "next_pid > 21605")
        self.until_equal(f"The waits that pass the filter {GONE}", lambda: self.line("histogram"))
        self.until_equal(f"What each CPU ran {GONE}", lambda: self.line("timeline"))
        self.let()
        # Another question is answered, so the server is there, and all is asked again.
        self.click("#tab-table")
        self.until(lambda: self.rows("#table-rows"))
        self.until_equal(self.filtered(), self.figures)
        self.until(lambda: "% busy" in self.text("#view-title"))
        self.assert_answered("histogram", "timeline", "table")

    def test_a_filter_that_is_not_applied_says_so(self):
        from selenium.webdriver.common.keys import Keys

        before, count = self.figures(), self.text("#count")
        for wrong, why in (("gone", GONE), (500, ROOMLESS)):
            self.let(filter=wrong)
            self.typed("#filter", "next_pid > 21605")
            self.until_equal(f"The waits that pass the filter {why}", lambda: self.line("histogram"))
            self.assertEqual(self.find("#filter").get_attribute("aria-invalid"), "true")
            self.assertEqual(self.text("#filter-message"), f"not applied: {why.partition(': ')[2]}")
            # What is shown is what was answered, and the table and the script are of that.
            self.assertEqual((self.figures(), self.text("#count"), self.js("return state.filter")), (before, count, ""))
            self.assertIn("stale", self.find("#count").get_attribute("class"))
            self.let()
            self.find("#filter").send_keys(Keys.ENTER)
            self.until_equal(self.filtered(), self.figures)
            self.assertEqual((self.text("#filter-message"), self.find("#filter").get_attribute("aria-invalid")), ("", "false"))
            self.assertNotIn("stale", self.find("#count").get_attribute("class"))
            self.assert_answered("histogram", "worst")
            self.typed("#filter", " ")
            self.until_equal(before, self.figures)

    def test_strikes_that_failed_are_not_ticked(self):
        before, rows, ticks = self.figures(), self.rows("#rows"), "return document.querySelectorAll('#ticks :checked').length"
        # With a filter, the new waits have to pass it, too.
        for path, wrong, why in (("strike", "gone", GONE), ("filter", 500, ROOMLESS)):
            self.typed("#filter", "next_pid > 21605")
            self.until_equal(self.filtered(), self.figures)
            self.let(**{path: wrong})
            self.js("document.querySelector('#ticks input').click()")
            self.until_equal(f"The waits without these events {why}", lambda: self.text("#status"))
            self.assertEqual((self.js(ticks), self.js("return [state.strikes.length, strikes.history.length]")), (0, [0, 0]))
            self.assertEqual((self.figures(), self.rows("#rows")), (self.filtered(), rows))
            self.assertFalse(self.find("#undo").is_enabled())
            self.let()
            self.js("document.querySelector('#ticks input').click()")
            self.until(lambda: "struck, " in self.text("#side-summary"))
            self.assert_answered("strike", "histogram", "worst")
            # One that can't be taken back stays.
            struck = self.text("#side-summary")
            self.let(strike=wrong)
            self.click("#undo")
            self.until_equal(f"The waits without these events {why}", lambda: self.text("#status"))
            self.assertEqual((self.js(ticks), self.text("#side-summary")), (1, struck))
            self.let()
            self.click("#undo")
            self.until_equal(rows, lambda: self.rows("#rows"))
            self.typed("#filter", " ")
            self.until_equal(before, self.figures)
            self.assert_answered("strike", "histogram", "worst")

    def test_the_table_and_the_script_are_asked_for_again(self):
        for tab, what, path, content in (
            ("table", "The trigger's table", "trigger", lambda: self.rows("#table-rows")),
            ("script", "The script", "script", lambda: self.text("#script-text")),
        ):
            for wrong, why in (("gone", GONE), (500, ROOMLESS)):
                self.let(**{path: wrong})
                self.click(f"#tab-{tab}")
                self.until_equal(f"{what} {why}", lambda: self.line(tab))
                self.assertFalse(content())
                if tab == "table":
                    self.assertEqual(self.text("#trigger-message"), f"not applied: {why.partition(': ')[2]}")
                self.let()
                self.click("#tab-strike")
                self.click(f"#tab-{tab}")
                self.until(content)
                self.assert_answered(tab)

    def test_a_wait_is_asked_for_again(self):
        self.click("#worst-1")
        self.until(lambda: self.js("return lanes.scene !== null"))
        for wrong, why in (("gone", GONE), (500, ROOMLESS)):
            self.let(wait=wrong)
            self.click("#worst-0")
            self.until_equal(f"What ran during this wait {why}", lambda: self.line("wait"))
            # What was shown is about another wait.
            self.assertFalse(self.find("#wait-text").is_displayed())
            self.assertEqual(self.text("#view-title"), "")
            self.let()
            self.click("#tab-time")
            self.click("#tab-wait")
            micros = int(self.waits.array.micros.max())
            self.until(lambda: f"waited {micros:,} µs" in self.text("#view-title"))
            self.assert_answered("wait")

    def test_what_differs_is_asked_for_again(self):
        rows = self.rows("#rows")
        failing = "window.wrong.differences = 500;"
        added = self.driver.execute_cdp_cmd("Page.addScriptToEvaluateOnNewDocument", {"source": failing})
        self.open(self.server.address)
        self.driver.execute_cdp_cmd("Page.removeScriptToEvaluateOnNewDocument", added)
        self.until_equal(f"What differs {ROOMLESS}", lambda: self.line("strike"))
        self.assertFalse(self.find("#rows").is_displayed())
        self.let()
        self.js("document.querySelector('#ticks input').click()")
        self.until(lambda: "struck, " in self.text("#side-summary"))
        self.click("#undo")
        self.until_equal(rows, lambda: self.rows("#rows"))
        self.assert_answered("strike")

    def test_an_ended_server_is_told(self):
        self.server.end()
        self.typed("#filter", "next_pid > 0")
        self.until_equal(f"The waits that pass the filter {GONE}", lambda: self.text("#status"))
        type(self).server = Server(*self.words)
