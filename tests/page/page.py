#!/usr/bin/env python3
"""Tests the page of tools/view in a real browser: whether it shows what the Python package and the program say of the same
traces, and what keys and clicks do, at two sizes, light and dark, and as a saved file.

    [HISTDESK=PROGRAM] page.py [TEST]...

PROGRAM is histdesk, and runs the scripts that the page shows. All is skipped if chromium, chromedriver or selenium is missing.
"""

import collections
import os
import pathlib
import re
import subprocess
import sys
import tempfile
import unittest

from browser import OTHER, PAGES, TRACE, VIEW, Page, Striking, bounds, figures_of, quietly, shown

import histdesk
import python_runner
import recordings

PROGRAM = os.environ.get("HISTDESK")


class Shown(Page):
    """What stands there at first, and what filters, bars and waits do."""

    def test_figures_are_those_of_the_package(self):
        self.assertEqual(self.figures(), [figures_of(self.waits)])
        self.assertEqual(self.text("#count"), f"{len(self.waits)} waits")

    def test_bars_are_those_of_the_package(self):
        self.assertEqual(self.bars(), [[bounds(power), f"{count} waits"] for power, count in self.waits.counts().histogram()])

    def test_stacks_add_up(self):
        for by in ("task", "cpu", "prio", "kind"):
            self.choose("#by", by)
            counts = self.js("return [...state.summaries[0].stacks]")
            self.assertEqual(sum(counts), len(self.waits))
            column = {
                "task": self.waits.names,
                "cpu": self.waits.array.end_cpu,
                "prio": self.waits.array.prio,
                "kind": self.waits.array.kind,
            }[by]
            most = collections.Counter(map(str, column.tolist())).most_common(1)[0][1]
            first = self.js(
                "const {groups, summaries} = state; return summaries[0].stacks.filter((_, at) => at % groups.count === 0).reduce((a, b) => a + b, 0)"
            )
            self.assertEqual(first, most)

    def test_linear_bars_hold_all(self):
        self.choose("#scale", "linear")
        found = self.until(lambda: [label for label in self.bars() if "to" in label[0]] and self.bars())
        micros = self.waits.array.micros
        for name, told in found:
            low, high = (
                (int(number) for number in (re.findall("[0-9]+", name.replace(",", "")) + ["999999999"])[:2])
                if "above" in name
                else (-1, int(re.search("[0-9]+", name)[0]))
            )
            self.assertEqual(told, f"{int(((micros > low) & (micros <= high)).sum())} waits", name)

    def test_a_filter_chooses_at_each_key(self):
        text = 'next_comm == "nginx"'
        self.typed("#filter", text)
        chosen = self.waits[self.waits.names == "nginx"]
        self.until_equal([figures_of(chosen)], self.figures)
        self.assertEqual(self.text("#count"), f"{len(chosen)} of {len(self.waits)} waits")
        self.assertEqual(self.count_listed(), len(chosen))

    def test_a_filter_of_wakings_chooses_what_begins_there(self):
        self.choose("#event", "sched_waking")
        self.typed("#filter", "pid > 24655")
        array = self.waits.array
        self.until_equal([figures_of(self.waits[(array.kind == "woken") & (array.pid > 24655)])], self.figures)

    def test_refused_words_have_a_caret(self):
        text = "next_pid 24650"
        with histdesk.Desk() as desk, self.assertRaises(histdesk.Refused) as refused:
            desk.matching("sched_switch", text)
        self.typed("#filter", text)
        # What explain says comes after that.
        self.until_equal(f"{' ' * 9}^ {refused.exception}: an operator is expected here", lambda: self.text("#filter-message"))
        self.assertEqual(self.find("#filter").get_attribute("aria-invalid"), "true")
        # What was there stays.
        self.assertEqual(self.figures(), [figures_of(self.waits)])
        self.typed("#trigger", "hist:keys=next_comm:bla")
        with histdesk.Desk() as desk, self.assertRaises(histdesk.Refused) as refused:
            desk.attach("sched_switch", "hist:keys=next_comm:bla")
        self.until(lambda: self.text("#trigger-message").startswith(f"{' ' * 20}^ {refused.exception}"))
        self.typed("#filter", "next_pid == 24650")
        self.until_equal("", lambda: self.text("#filter-message"))

    def test_what_was_meant_is_said(self):
        for text, wanted in (
            ("next_pid = 7", "= is not an operator; did you mean ==?"),
            ("next_pid == 7 and next_prio < 5", "did you mean &&?"),
            ("next_pit == 7", "did you mean next_pid?"),
        ):
            self.typed("#filter", text)
            self.until(lambda: self.text("#filter-message").rstrip("^ ").endswith(wanted))
        self.typed("#strike-text", "pid = 7")
        self.find("#strike-any button").click()
        self.until(lambda: "did you mean ==?" in self.text("#strike-text-message"))

    def test_fields_are_suggested(self):
        from selenium.webdriver.common.keys import Keys

        fields = lambda: self.js(
            "return [...document.querySelectorAll('.fields:not([hidden]) li')].map((one) => one.textContent)"
        )
        self.press("/", "next_p")
        self.until_equal(["next_pid", "next_prio"], fields)
        self.press(Keys.ARROW_DOWN, Keys.ARROW_DOWN, Keys.ENTER, " < 121 && ")
        self.assertEqual(self.find("#filter").get_attribute("value"), "next_prio < 121 && ")
        self.assertEqual(fields(), [])
        self.press(Keys.ARROW_DOWN)
        self.assertEqual(fields(), histdesk._schema.field_names("sched_switch"))
        self.press(Keys.ESCAPE)
        self.assertEqual((fields(), self.js("return document.activeElement.id")), ([], "filter"))
        # No field stands in a text, or as a value.
        self.press('next_comm == "next')
        self.assertEqual(fields(), [])
        self.press('" || !prev_s')
        self.until_equal(["prev_state"], fields)
        self.js("document.querySelector('.fields:not([hidden]) li').click()")
        self.assertTrue(self.find("#filter").get_attribute("value").endswith("|| !prev_state"))
        self.choose("#event", "sched_waking")
        self.typed("#filter", "targ")
        self.until_equal(["target_cpu"], fields)

    def test_a_bar_leads_to_its_waits_and_a_wait_to_what_ran(self):
        bars = self.bars()
        at = next(at for at, (name, _) in enumerate(bars) if name == "above 256 to 512 µs")
        self.click_bar(at)
        micros = self.waits.array.micros
        wanted = sorted((int(one) for one in micros[(micros > 256) & (micros <= 512)]), reverse=True)
        self.until_equal([str(one) for one in wanted], lambda: [row[0] for row in self.listed()])
        self.click("#worst-1")
        wait = self.waits.array[micros == wanted[1]][0]
        why = histdesk.why(TRACE, int(wait.end_cpu), int(wait.end_line))
        words = lambda text: re.sub(r"\s+", " ", text).strip()
        texts = "return [...document.querySelectorAll('#wait-text > :is(p, pre)')].map((one) => one.textContent).join(' ')"
        self.until_equal(words(" ".join(why.text().split("\n\n")[:2])), lambda: words(self.js(texts)))
        shares = [
            [f"{one.task} {one.pid}" if one.pid else "idle", shown(one.prio), shown(one.micros), shown(one.runs)]
            for one in why.shares
        ]
        self.assertEqual([row[:3] + row[4:] for row in self.rows("#wait-text table")], shares)
        self.assertFalse(self.find("#wait-empty").is_displayed())
        self.assertIn(f"waited {wanted[1]} µs", self.until(lambda: self.text("#view-title")))
        # It is seen over time, too.
        self.find("#tab-time").click()
        self.until(lambda: "waits from" in self.text("#view-title"))

    def test_rows_are_sorted(self):
        for column, at in (("name", 1), ("end", 6), ("endCpu", 3), ("micros", 0)):
            self.find(f"[data-sort={column}] button").click()
            order = self.until(lambda: self.js("return document.querySelector(arguments[0]).ariaSort", f"[data-sort={column}]"))
            told = self.js(
                "return Array.from(worst.numbers, (wait) => { const side = state.sides[0]; return arguments[0] === 'end' ? side.end(wait) : arguments[0] === 'name' ? side.task(wait) : side.value(arguments[0], wait); })",
                column,
            )
            self.assertEqual(told, sorted(told, reverse=order == "descending"))
            self.assertEqual(len(told), len(self.waits))

    def test_a_point_is_a_wait(self):
        x, y = self.js(
            "const at = worst.numbers[0], side = state.sides[0]; return [overTime.axis.x(side.end(at)), overTime.y(side.value('micros', at))]"
        )
        self.click_at(self.find("#time-points"), x, y)
        self.until(lambda: f"waited {self.waits.array.micros.max()} µs" in self.text("#view-title"))

    def test_zoom_and_move(self):
        canvas = self.find("#time-points")
        span = lambda: self.js("return [overTime.axis.low, overTime.axis.high]")
        low, high = span()
        canvas.send_keys("+")
        nearer = span()
        self.assertLess(nearer[1] - nearer[0], high - low)
        canvas.send_keys("0")
        self.assertEqual(span(), [low, high])
        self.js("overTime.canvas.dispatchEvent(new WheelEvent('wheel', {deltaY: -400, offsetX: 200, cancelable: true}))")
        self.assertLess(span()[1] - span()[0], high - low)
        self.find("[data-zoom='']").click()
        self.assertEqual(span(), [low, high])

    def test_a_wait_shows_more_around_it(self):
        self.click("#worst-3")
        self.until(lambda: self.js("return lanes.scene !== null"))
        before = self.js("return lanes.scene.from")
        for _ in range(4):
            self.find("#lanes").send_keys("-")
        self.until(
            lambda: self.js(
                "return lanes.scene.from < arguments[0] && lanes.scene.from <= lanes.scene.begin + lanes.axis.low", before
            )
        )


class Triggers(Page):
    """The trigger's table, and the script that gives it."""

    def test_the_table_is_the_programs(self):
        self.typed("#trigger", "hist:keys=next_comm,next_pid:vals=hitcount:sort=hitcount.descending")
        self.typed("#filter", "next_pid != 0 && next_prio < 121")
        self.find("#tab-table").click()
        with histdesk.Desk() as desk:
            desk.load(TRACE)
            trigger = desk.attach(
                "sched_switch",
                "hist:keys=next_comm,next_pid:vals=hitcount:sort=hitcount.descending if next_pid != 0 && next_prio < 121",
            )
            rows, totals = [[str(cell) for cell in row] for row in trigger.rows()], trigger.totals()
        self.until_equal(rows, lambda: self.rows("#table-rows"))
        self.assertEqual(
            self.text("#table-summary"), f"{totals.entries:,} rows of {totals.hits:,} hits, {totals.dropped:,} dropped"
        )
        self.find("#tab-script").click()
        self.until(lambda: "next_prio < 121" in self.text("#script-text"))
        self.assertIn("recipes.trace", self.text("#script-command"))
        if PROGRAM:
            told = re.findall(r"\{ next_comm: ([^,]*?) *, next_pid: +([0-9]+) *\} hitcount: +([0-9]+)", self.ran())
            self.assertEqual([list(row) for row in told], rows)

    def ran(self):
        """Return what the program prints for the script that the page shows."""
        with tempfile.NamedTemporaryFile("w", suffix=".script") as file:
            file.write(self.text("#script-text"))
            file.flush()
            ran = subprocess.run([PROGRAM, file.name, TRACE], capture_output=True, text=True)
        self.assertEqual((ran.returncode, ran.stderr), (0, ""))
        return ran.stdout

    @unittest.skipUnless(PROGRAM, "without the program")
    def test_the_script_gives_the_waits(self):
        self.find("#tab-script").click()
        for event, text in (("sched_switch", ""), ("sched_switch", "next_prio < 121"), ("sched_waking", "pid > 24653")):
            self.choose("#event", event)
            self.typed("#filter", text or " ")
            self.until(
                lambda: f"attach {event} hist" in self.text("#script-text")
                and text in self.text("#script-text")
                and self.js("return state.filter") == text
            )
            for struck in ([], ["sched_waking if common_cpu == 1"]):
                self.js(
                    "strikes.set(arguments[0].map((text) => ({ event: 'sched_waking', text: text.split(' if ')[1] })))", struck
                )
                self.until_equal(bool(struck), lambda: self.js("return state.fresh !== null"))
                self.until_equal(bool(struck), lambda: "\nstrike " in self.text("#script-text"))
                shown = self.js(
                    """const side = state.sides[state.sides.length - 1], found = {};
                    for (const wait of side.longest(-1, Infinity, null)) {
                        if (side.value("kind", wait)) continue;
                        const row = found[side.value("pid", wait)] ??= [0, 0];
                        row[0]++;
                        row[1] += side.value("micros", wait);
                    }
                    return found;"""
                )
                table = self.ran().split("# event histogram")[1]
                told = re.findall(r"\{ next_pid: +([0-9]+) *\} hitcount: +([0-9]+) +waited: +([0-9]+)", table)
                self.assertEqual({pid: [int(count), int(micros)] for pid, count, micros in told}, shown, (event, text, struck))


class Strikes(Striking):
    """Waits without some wakings."""

    def test_a_tick_strikes_and_undo_takes_it_back(self):
        pid = int(self.waits.array.pid[self.waits.names == "nginx"][0])
        text = f"sched_waking if pid == {pid}"
        self.tick(text)
        self.assert_struck(text)
        self.tick("sched_waking if common_cpu == 1")
        self.assert_struck(text, "sched_waking if common_cpu == 1")
        self.find("#undo").click()
        self.assert_struck(text)
        self.press("u")
        self.until_equal([figures_of(self.waits)], self.figures)
        self.assertFalse(self.find("#undo").is_enabled())

    def test_any_filter_strikes_and_a_bad_one_is_refused(self):
        self.typed("#strike-text", "common_pid == 0 &&")
        self.find("#strike-any button").click()
        self.until(lambda: "^" in self.text("#strike-text-message"))
        self.assertEqual(self.figures(), [figures_of(self.waits)])
        self.typed("#strike-text", "common_pid == 0 || pid == 24650")
        self.find("#strike-any button").click()
        self.assert_struck("sched_waking if common_pid == 0 || pid == 24650")
        # A filter chooses on both sides; a button lists the other side.
        self.typed("#filter", "next_pid == 24650")
        difference = quietly(histdesk.diff, TRACE, without="sched_waking if common_pid == 0 || pid == 24650")
        wanted = [figures_of(side[side.array.pid == 24650]) for side in (difference.before, difference.after)]
        self.until_equal(wanted, self.figures)
        self.find("[data-side='1']").click()
        self.until_equal(int((difference.after.array.pid == 24650).sum()), self.count_listed)

    def test_a_wait_behind_is_told_as_it_is_there(self):
        texts = [
            f"sched_waking if {field} == {number}"
            for field in ("pid", "common_pid")
            for number in (0, *set(self.waits.array.pid.tolist()))
        ]
        fates = ((text, quietly(histdesk.diff, TRACE, without=text).fate) for text in texts)
        text = next(text for text, fate in fates if fate.moved + fate.new)
        self.typed("#strike-text", text.split(" if ")[1])
        self.find("#strike-any button").click()
        self.assert_struck(text)
        self.find("#ticks input").send_keys("v")
        self.assertEqual(self.js("return state.current"), 1)
        fresh = self.js("return Array.from(worst.numbers).findIndex((wait) => wait >= state.sides[1].parts[0].count)")
        self.assertGreaterEqual(fresh, 0)
        self.js("worst.choose(arguments[0], true)", fresh)
        micros = self.js("return state.sides[1].value('micros', worst.numbers[arguments[0]])", fresh)
        self.until(lambda: f"waited {micros} us" in self.text("#wait-text"))

    def test_changed_rows_alone_flash(self):
        one, other = (f"sched_waking if pid == {pid}" for pid in (24650, 24653))
        self.tick(one)
        self.assert_struck(one)
        self.tick(other)
        self.assert_struck(one, other)
        flash = self.js("return [...document.querySelectorAll('#rows .flash')].map((row) => row.dataset.row)")
        before, after = (quietly(histdesk.diff, TRACE, without=list(texts)) for texts in ((one,), (one, other)))
        rows = [{row.key[1:]: row for row in difference.table("task")} for difference in (before, after)]
        changed = {f"{key[0]} {key[1]}" for key, row in rows[1].items() if rows[0].get(key) != row}
        self.assertEqual(set(flash), changed)

    def test_many_strikes_lose_nothing(self):
        script = """const ticks = [...document.querySelectorAll("#ticks input")];
            let seed = 7;
            for (let at = 0; at < 10000; at++) {
              seed = (seed * 1103515245 + 12345) % 2147483648;
              ticks[Math.floor(seed / 65536) % ticks.length].click();
              if (at % 250 === 0) await new Promise((resume) => setTimeout(resume, 20));
            }
            return state.strikes.map((one) => strikes.key(one));"""
        self.driver.set_script_timeout(60)
        struck = self.js(script)
        self.assertGreater(len(struck), 3)
        self.assert_struck(*struck)
        self.js("strikes.set([])")
        self.until_equal([figures_of(self.waits)], self.figures)


class Two(Page):
    """Two recordings over each other."""

    words = (OTHER, TRACE)

    def test_both_are_shown(self):
        others = quietly(histdesk.waits, TRACE)
        self.assertEqual(self.figures(), [figures_of(self.waits), figures_of(others)])
        counts = [
            dict(zip(map(bounds, dict(side.counts().histogram())), dict(side.counts().histogram()).values()))
            for side in (self.waits, others)
        ]
        for name, told in self.bars():
            self.assertEqual(told, f"{counts[0].get(name, 0)} recipes-before.trace, {counts[1].get(name, 0)} recipes.trace")
        self.choose("#form", "curve")
        self.until_equal(
            [4, 2],
            lambda: self.js(
                "return [document.querySelectorAll('#bars circle').length, document.querySelectorAll('#bars polyline').length]"
            ),
        )
        self.press("v")
        self.until_equal(len(others), self.count_listed)

    def wanted(self, figure):
        """Return what differs, as the package has it: first the rows in which a figure changed most."""
        table = histdesk.diff(OTHER, TRACE).table("name")
        told = lambda side, name: getattr(side, name) if side.count else None
        table.sort(key=lambda row: -abs((told(row.after, figure) or 0) - (told(row.before, figure) or 0)))
        pairs = (
            [(shown(told(row.before, name)), shown(told(row.after, name))) for name in ("count", "p50", "p99", "max")]
            for row in table
        )
        cells = ([was if was == now else f"{was} → {now}" for was, now in row] for row in pairs)
        return [[f"{row.key[0]}  {row.key[1]}", *found] for row, found in zip(table, cells)]

    def test_what_differs_is_what_the_package_says(self):
        for figure in ("count", "p99"):
            self.find(f"[data-change={figure}] button").click()
            wanted = self.wanted(figure)
            # Rows in which it changed equally may stand in either order.
            self.until_equal(sorted(wanted), lambda: sorted(self.rows("#rows")))
            changes = [row[1 + 2 * (figure == "p99")] for row in wanted]
            self.until_equal(changes, lambda: [row[1 + 2 * (figure == "p99")] for row in self.rows("#rows")])
        self.assertEqual(self.rows("#rows")[0][0], "cyclictest  woken")
        told = self.text("#side-summary")
        self.assertEqual(told, f"{len(wanted)} rows differ")
        # Events are struck from the first recording; after undo, the rows are there again.
        self.js("document.querySelector('#ticks input').click()")
        self.until(lambda: "recipes-before.trace struck" in self.text("#side-summary"))
        self.press("u")
        self.until_equal(told, lambda: self.text("#side-summary"))


class Lossy(Page):
    """Doubtful waits."""

    @classmethod
    def setUpClass(cls):
        # Some tasks wait when CPU 1 loses events.
        cls.folder = tempfile.TemporaryDirectory()
        path = os.path.join(cls.folder.name, "lossy.trace")
        with open(TRACE, encoding="utf-8") as trace, open(path, "w", encoding="utf-8") as lossy:
            lines = trace.readlines()
            lossy.writelines([*lines[:100], "CPU:1 [LOST 7 EVENTS]\n", *lines[100:]])
        cls.words = (path,)
        super().setUpClass()

    @classmethod
    def tearDownClass(cls):
        super().tearDownClass()
        cls.folder.cleanup()

    def test_doubtful_waits_stand_apart(self):
        self.assertGreater(self.waits.doubtful, 0)
        self.assertEqual(self.figures(), [figures_of(self.waits)])
        apart = [int(number) for _, told in self.bars() for number in re.findall("([0-9]+) doubtful apart", told)]
        self.assertEqual(sum(apart), self.waits.doubtful)
        self.find("[data-sort=doubtful] button").click()
        self.until_equal(self.waits.doubtful, lambda: [row[-1] for row in self.listed()].count("doubtful"))
        self.find("#doubtful").click()
        self.until_equal([figures_of(self.waits, True)], self.figures)

    def test_losses_are_at_the_top(self):
        warnings = [*self.waits.warning.split("\n"), *self.waits.remarks()]
        box = self.find("#warnings")
        self.assertLess(box.rect["y"], self.find("#line").rect["y"])
        self.assertIn(warnings[0], self.text("#warnings summary"))
        items = "return [...document.querySelectorAll('#warnings li')].filter((one) => one.checkVisibility()).map((one) => one.textContent)"
        self.assertEqual(self.js(items), [])
        before = self.find("#histogram").rect["y"]
        self.find("#warnings summary").click()
        self.assertEqual(self.js(items), warnings)
        self.assertGreater(self.find("#histogram").rect["y"], before)


class Wide(Page):
    """More CPUs than there is room for."""

    CPUS = 80

    @classmethod
    def setUpClass(cls):
        cls.folder = tempfile.TemporaryDirectory()
        cls.words = (os.path.join(cls.folder.name, "wide.trace"),)
        with open(cls.words[0], "wb") as file:
            events = [recordings.waking(0, 1000, 7)]
            events += [recordings.switch(cpu, 1001 + cpu, "<idle>-0", f"task-{100 + cpu}") for cpu in range(cls.CPUS)]
            events += [recordings.switch(5, 2000, "task-105", "late-7")]
            file.write(recordings.text_of(events))
        super().setUpClass()

    @classmethod
    def tearDownClass(cls):
        super().tearDownClass()
        cls.folder.cleanup()

    def test_a_key_shows_the_next_cpus(self):
        self.press("n")
        self.click("#worst-0")
        self.until(lambda: self.js("return lanes.scene && lanes.boxes.length"))
        shown = lambda: self.js("return lanes.lanesInSight().map(({ cpu }) => cpu)")
        first, seen = shown(), set()
        self.assertEqual(first[:2], [0, 5])
        self.assertLess(len(first), self.CPUS)
        for _ in range(self.CPUS // (len(first) - 2) + 1):
            self.assertEqual((shown()[:2], len(shown())), ([0, 5], len(first)))
            seen.update(shown())
            self.press("n")
        self.assertEqual(seen, set(range(self.CPUS)))


class OtherEvents(Page):
    """An event that the server knows, and the page does not."""

    def test_a_new_event_needs_no_edit_of_the_page(self):
        from selenium.webdriver.common.keys import Keys

        script = """const server = window.fetch;
            window.fetch = async (path, ...words) => {
                const answer = await server(path, ...words);
                if (path !== "about") return answer;
                const about = await answer.json();
                about.schema.events.push({ name: "sched_made_up", task: "made_comm", fields: ["made_comm", "made_pid"] });
                return new Response(JSON.stringify(about));
            };"""
        added = self.driver.execute_cdp_cmd("Page.addScriptToEvaluateOnNewDocument", {"source": script})
        self.addCleanup(self.driver.execute_cdp_cmd, "Page.removeScriptToEvaluateOnNewDocument", added)
        self.open(self.server.address)
        names = [*histdesk._schema.WAIT_EVENTS, "sched_made_up"]
        options = "return [...document.getElementById(arguments[0]).options].map((one) => one.value)"
        self.assertEqual(self.js(options, "strike-event"), names)
        self.assertEqual(sorted(self.js(options, "event")), sorted(names))
        self.choose("#event", "sched_made_up")
        self.assertEqual(self.find("#trigger").get_attribute("value"), "hist:keys=made_comm:sort=hitcount.descending")
        self.press("/", "made", Keys.ARROW_DOWN)
        fields = self.js("return [...document.querySelectorAll('#filter-fields li')].map((one) => one.textContent)")
        self.assertEqual(fields, ["made_comm", "made_pid"])


class Busy(Page):
    """A wait during which there are more runs than are sent."""

    SWITCHES = 9000

    @classmethod
    def setUpClass(cls):
        cls.folder = tempfile.TemporaryDirectory()
        cls.words = (os.path.join(cls.folder.name, "busy.trace"),)
        # A task waits for CPU 1 while CPU 0 switches between two others, and is idle for half of the time.
        events = [recordings.switch(0, 1, "<idle>-0", "a-1"), recordings.switch(1, 2, "<idle>-0", "long-9")]
        events += [recordings.waking(0, 1000, 7, target=1)]
        tasks = ["a-1", "<idle>-0", "b-2", "<idle>-0"]
        for at in range(cls.SWITCHES):
            events.append(recordings.switch(0, 1010 + 10 * at, tasks[at % 4], tasks[(at + 1) % 4]))
        events += [recordings.switch(1, 1010 + 10 * cls.SWITCHES, "long-9", "w-7")]
        with open(cls.words[0], "wb") as file:
            file.write(recordings.text_of(events))
        super().setUpClass()

    @classmethod
    def tearDownClass(cls):
        super().tearDownClass()
        cls.folder.cleanup()

    def test_all_of_a_wait_is_drawn(self):
        self.click("#worst-0")
        self.until(lambda: self.js("return lanes.scene && lanes.boxes.length"))
        length = 10 + 10 * self.SWITCHES
        self.until_equal(f"task-7 7 waited {length:,} µs for CPU 1".replace("task-7", "w"), lambda: self.text("#view-title"))
        self.assertIn("Grey stands for many short runs", self.text("#wait-note"))
        # From the beginning to the end of the wait, something is drawn on each lane; runs that are put together are half busy.
        boxes = """const { axis, scene } = lanes, [from, until] = [axis.x(0), axis.x(scene.end - scene.begin)];
            return [0, 1].map((cpu) => {
                const own = lanes.boxes.filter((box) => box.cpu === cpu);
                return [own[0].from <= from, own.at(-1).until >= until - 0.01, own.length];
            });"""
        (*ends, count), (*others, _) = self.js(boxes)
        self.assertEqual((ends, others), ([True, True], [True, True]))
        self.assertLess(count, self.SWITCHES / 2)
        shares = "return lanes.boxes.filter(({ stretch }) => stretch.count > 9).map(({ stretch }) => stretch.busy / (stretch.end - stretch.begin))"
        self.assertTrue(all(0.4 <= share <= 0.6 for share in self.js(shares)))
        # Whoever zooms in sees each run.
        for _ in range(12):
            self.find("#lanes").send_keys("+")
        self.until(lambda: not self.js("return lanes.scene.thin"))
        self.until_equal("", lambda: self.text("#wait-note"))
        names = self.js("return lanes.boxes.filter((box) => box.cpu === 0).map(({ stretch }) => stretch.task)")
        self.assertEqual(set(names), {"a", "b", "<idle>"})
        self.find("#lanes").send_keys("0")
        self.until(lambda: self.js("return lanes.scene.thin"))

    def test_words_beside_a_wait_are_not_cut(self):
        self.click("#worst-0")
        self.until(lambda: self.js("return lanes.scene !== null"))
        cut = """return [...document.querySelectorAll("#wait-text, #wait-text p, #wait-text pre")]
            .filter((one) => one.scrollWidth > one.clientWidth + 1).map((one) => one.textContent)"""
        for width in (390, 1000, 1280, 1400, 1600):
            self.resize(width, 800)
            self.assertEqual(self.js(cut), [], width)


class Empty(Page):
    """A recording without events."""

    @classmethod
    def setUpClass(cls):
        cls.file = tempfile.NamedTemporaryFile(suffix=".trace")
        cls.words = (cls.file.name,)
        super().setUpClass()

    @classmethod
    def tearDownClass(cls):
        super().tearDownClass()
        cls.file.close()

    def test_nothing_is_told_of_nothing(self):
        self.assertEqual(self.figures(), [["0", *["-"] * 6, "0"]])
        self.assertIn("This recording has no wait", self.text("#worst-empty"))
        # A heading has something below it.
        self.assertEqual(self.js("return document.querySelectorAll('#ticks h3:has(+ h3), #ticks h3:last-child').length"), 0)
        self.press("p")
        self.until(lambda: self.text("#script-text").startswith("load @1"))


class Saved(Page):
    """The page as one file."""

    def test_a_saved_file_needs_no_server(self):
        with tempfile.TemporaryDirectory() as folder:
            path = os.path.join(folder, "saved.html")
            ran = subprocess.run([sys.executable, VIEW, TRACE, OTHER, "--save", path], capture_output=True, text=True)
            self.assertEqual((ran.returncode, ran.stderr), (0, ""))
            self.driver.get_log("browser")
            self.open(f"file://{path}")
            others = quietly(histdesk.waits, OTHER)
            self.assertEqual(self.figures(), [figures_of(self.waits), figures_of(others)])
            self.assertFalse(self.find("#filter").is_enabled())
            self.assertIn("tools/view", self.find("#filter").get_attribute("placeholder"))
            self.click("#worst-0")
            longest = self.waits.array[self.waits.array.micros.argmax()]
            text = histdesk.why(TRACE, int(longest.end_cpu), int(longest.end_line)).text(width=1000)
            self.until_equal(text.split("\n")[0], lambda: self.js("return document.querySelector('#wait-text p')?.textContent"))
            self.assertEqual([line["message"] for line in self.driver.get_log("browser")], [])
            # Nothing in it may be sent anywhere.
            asked = """const violated = new Promise((resolve) => {
                    document.addEventListener("securitypolicyviolation", ({ effectiveDirective }) => resolve(effectiveDirective));
                });
                fetch(arguments[0]).catch(() => {});
                return violated;"""
            self.assertEqual(self.js(asked, self.server.address), "connect-src")
            self.driver.get_log("browser")
            self.open(self.server.address)
            self.assertEqual([line["message"] for line in self.driver.get_log("browser")], [])


class Files(unittest.TestCase):
    """What the page is made of."""

    def test_modules_import_what_they_use(self):
        exports, imports = {}, {}
        for path in sorted(pathlib.Path(PAGES).glob("*.js")):
            name, text = path.name, path.read_text("utf-8")
            exports[name] = set(re.findall(r"^export (?:async )?(?:const|let|function|class) (\w+)", text, re.MULTILINE))
            pairs = re.findall(r'^import \{\s*([^}]*?),?\s*\} from "\./([^"]+)";$', text, re.MULTILINE)
            self.assertEqual(len(pairs), text.count("\nimport "), name)
            body = re.sub(r"^import [^;]*;$|//.*$", "", text, flags=re.MULTILINE)
            for words, module in pairs:
                for word in re.split(r",\s*", words):
                    imports.setdefault(module, set()).add(word)
                    self.assertRegex(body, rf"\b{word}\b", f"{name} imports {word}")
        self.assertEqual({module: words - exports[module] for module, words in imports.items() if words - exports[module]}, {})
        unused = {module: words - imports.get(module, set()) for module, words in exports.items()}
        self.assertEqual({module: words for module, words in unused.items() if words}, {})

    def test_modules_are_all_used_and_ask_nobody_else(self):
        texts = {path.name: path.read_text("utf-8") for path in pathlib.Path(PAGES).iterdir()}
        modules = {name for name in texts if name.endswith(".js")}
        self.assertEqual(re.findall(r'<script[^>]* src="([^"]+)"', texts["page.html"]), ["page.js"])
        used, found = set(), {"page.js"}
        while found:
            used |= found
            found = {name for one in found for name in re.findall(r' from "\./([^"]+)";', texts[one])} - used
        self.assertEqual(used, modules)
        for name, text in texts.items():
            links = [link for link in re.findall(r"https?://[^\"' ]*", text) if link != "http://www.w3.org/2000/svg"]
            self.assertEqual(links, [], name)


if __name__ == "__main__":
    sys.exit(python_runner.main())
