"""The page by keys only, and what a screen reader has of it."""

from browser import Page


class ByKeys(Page):
    """What each key does, and where the focus goes."""

    def test_all_keys_do_something(self):
        from selenium.webdriver.common.keys import Keys

        documented = self.js("return [...document.querySelectorAll('#help-keys kbd')].map((key) => key.textContent)")[:-1]
        self.assertEqual({"Esc": "Escape"}.get(documented[0], documented[0]), "/")
        self.assertEqual({"Escape" if key == "Esc" else key for key in documented}, set(self.js("return Object.keys(KEYS)")))
        focus = lambda: self.js("return document.activeElement.id")
        # A title is a button, which Enter presses.
        self.find("[data-sort=pid] button").send_keys(Keys.ENTER)
        self.assertEqual(self.js("return worst.column"), "pid")
        self.find("[data-sort=micros] button").send_keys(Keys.ENTER)
        for key, wanted in (
            ("/", "filter"),
            ("t", "trigger"),
            ("h", "bars"),
            ("w", "worst-rows"),
            ("o", "time-points"),
        ):
            self.press(Keys.ESCAPE)
            self.press(key)
            self.assertEqual(focus(), wanted, key)
        self.press("h", Keys.ARROW_RIGHT, Keys.ARROW_RIGHT)
        self.assertEqual(self.js("return state.bar"), 1)
        self.press(Keys.ENTER, Keys.ARROW_DOWN, Keys.ENTER)
        self.until(lambda: self.js("return lanes.scene !== null"))
        self.assertEqual(self.js("return worst.at"), 1)
        self.press("?")
        self.assertTrue(self.find("#help").is_displayed())
        self.press(Keys.ESCAPE)
        self.assertFalse(self.find("#help").is_displayed())
        self.press(Keys.ESCAPE)
        self.assertEqual(self.js("return state.bar"), None)

    def test_who_uses_keys_stays_where_they_are(self):
        from selenium.webdriver.common.keys import Keys

        focused = lambda: self.js("return document.activeElement.textContent.trim() || document.activeElement.id")
        name = self.js(
            "const [, button] = document.querySelectorAll('#legend button'); button.focus(); return button.textContent"
        )
        self.press(Keys.ENTER)
        self.until(lambda: self.js("return state.group === 1"))
        self.until(lambda: self.js("return document.querySelectorAll('#bars .dim').length"))
        self.assertEqual(focused(), name)
        # The button that takes this back disappears when it is pressed; the list stays.
        self.js("document.getElementById('all-bars').focus()")
        self.press(Keys.ENTER)
        self.until(lambda: self.js("return state.group === null"))
        self.assertEqual(self.js("return document.activeElement.id"), "worst-rows")
        self.js("document.querySelector('#ticks input').click()")
        self.until(lambda: self.find("#undo").is_enabled())
        self.js("document.getElementById('undo').focus()")
        self.press(Keys.ENTER)
        self.until(lambda: not self.find("#undo").is_enabled())
        self.assertEqual(self.js("return document.activeElement.id"), "tab-strike")

    def focus(self):
        return self.js("return document.activeElement.id")

    def test_text_boxes_are_left_by_enter_and_escape(self):
        from selenium.webdriver.common.keys import Keys

        text = 'next_comm == "nginx"'
        self.press("/", text)
        self.until_equal(int((self.waits.names == "nginx").sum()), self.count_listed)
        self.press(Keys.ENTER)
        self.assertEqual(self.focus(), "worst-rows")
        self.press("/", Keys.ESCAPE)
        self.assertEqual((self.focus(), self.find("#filter").get_attribute("value")), ("", text))
        # After a box is left, the shortcuts work again.
        self.press("t", Keys.ENTER)
        self.assertEqual(self.js("return document.activeElement.getAttribute('aria-label')"), "the trigger's table")
        # Whoever types quickly goes on before the answer is there, even if the beginning of the text was refused.
        self.press("t")
        self.typed("#filter", "next_prio <")
        self.until(lambda: self.find("#filter").get_attribute("aria-invalid") == "true")
        self.press(" 100", Keys.ENTER)
        self.assertEqual(self.focus(), "worst-rows")
        # Enter stays if the text is refused.
        self.press("/", " &&")
        self.until(lambda: self.find("#filter").get_attribute("aria-invalid") == "true")
        self.press(Keys.ENTER)
        self.assertEqual(self.focus(), "filter")

    def test_single_keys_work_in_choices_and_can_be_turned_off(self):
        from selenium.webdriver.common.keys import Keys

        for box in ("by", "heights", "theme", "strike-event"):
            for key, wanted in (("w", "worst-rows"), ("h", "bars")):
                self.js("document.getElementById(arguments[0]).focus()", box)
                self.press(key)
                self.assertEqual(self.focus(), wanted, box)
        # Tab gets there from the filter.
        self.press("/", Keys.TAB)
        self.assertEqual(self.focus(), "by")
        self.press("?")
        self.find("#letters").click()
        self.press(Keys.ESCAPE)
        self.addCleanup(self.js, "localStorage.clear()")
        for _ in range(2):
            self.js("document.getElementById('bars').focus()")
            for key in self.js("return Object.keys(KEYS).filter((key) => key.length === 1)"):
                self.press(key)
                self.assertEqual((self.focus(), self.find("#help").is_displayed()), ("bars", False), key)
            self.press(Keys.ARROW_RIGHT)
            self.until_equal(0, lambda: self.js("return state.bar"))
            self.press(Keys.ESCAPE)
            self.until_equal(None, lambda: self.js("return state.bar"))
            # The browser remembers it.
            self.open(self.server.address)
        self.find("[data-key='?']").click()
        self.find("#letters").click()
        self.press(Keys.ESCAPE, "w")
        self.assertEqual(self.focus(), "worst-rows")

    def test_points_are_chosen_by_keys(self):
        from selenium.webdriver.common.keys import Keys

        micros, ends = self.waits.array.micros, self.waits.array.end_stamp
        where = "const { cursor } = overTime; return [side().value('micros', cursor), overTime.column(side().end(cursor))]"
        self.press("o", Keys.ARROW_UP)
        self.assertEqual(self.js(where)[0], int(micros.max()))
        # From left to right each column is met once, at its longest wait.
        columns = self.js("return Array.from(arguments[0], (end) => overTime.column(end - side().about.first))", ends.tolist())
        longest = {}
        for column, length in zip(columns, micros.tolist()):
            longest[column] = max(longest.get(column, 0), length)
        self.js("overTime.moveTo(null)")
        met = []
        for _ in longest:
            self.press(Keys.ARROW_RIGHT)
            length, column = self.js(where)
            met.append((column, length))
        self.assertEqual(met, sorted(longest.items()))
        # Within a column all its waits are met, from the longest to the shortest.
        column = max(longest, key=columns.count)
        self.js(
            "while (overTime.column(side().end(overTime.cursor)) > arguments[0]) overTime.moveTo(overTime.beside(-1))", column
        )
        wanted = sorted((length for at, length in zip(columns, micros.tolist()) if at == column), reverse=True)
        met = [self.js(where)[0]]
        for _ in wanted[1:]:
            self.press(Keys.ARROW_DOWN)
            met.append(self.js(where)[0])
        self.assertEqual(met, wanted)
        self.press(Keys.ARROW_UP)
        self.until(lambda: self.text("#announcer").startswith(self.js("return side().task(overTime.cursor)")))
        length = self.js(where)[0]
        self.press(Keys.ENTER)
        self.until(lambda: f"waited {length:,} µs" in self.text("#view-title"))

    def test_a_screen_reader_is_told_only_what_was_asked_for(self):
        from selenium.webdriver.common.keys import Keys

        self.driver.set_script_timeout(60)
        live = """const live = document.querySelectorAll("output, [aria-live], [role=status], [role=alert], [role=log]");
            return [...live].map((one) => one.id);"""
        self.assertEqual(self.js(live), ["status", "announcer"])
        said = """window.said = [];
            for (const id of ["status", "announcer"]) {
                new MutationObserver(() => window.said.push(document.getElementById(id).textContent))
                    .observe(document.getElementById(id), { childList: true, characterData: true, subtree: true });
            }"""
        self.js(said)
        wait = "await new Promise((resume) => setTimeout(resume, 1500)); return window.said.splice(0)"
        self.press("o", "+", "+", Keys.PAGE_UP, Keys.PAGE_DOWN, "-", "0")
        self.js(
            """for (let x = 50; x < 400; x += 10) {
                overTime.canvas.dispatchEvent(new PointerEvent("pointermove", { clientX: x, clientY: 500, bubbles: true }));
            }"""
        )
        self.assertEqual(self.js(wait), [])
        # A filter that is typed key by key is said once, with what it gives.
        self.press("/", "next_pid > 0 && next_pid < 24655")
        pids = self.waits.array.pid
        count = int(((pids > 0) & (pids < 24655)).sum())
        self.assertEqual(self.js(wait), [f"{count} of {len(self.waits)} waits"])
        rows = "return [...document.querySelectorAll('#worst-rows [role=row]')].slice(0, 3).map((row) => row.ariaRowIndex)"
        self.assertEqual(self.js(rows), ["1", "2", "3"])
        self.assertEqual(self.find("#worst-rows").get_attribute("aria-rowcount"), str(count + 1))

    def test_all_that_is_used_has_a_name(self):
        nameless = self.js(
            """const used = [...document.querySelectorAll("button, input, select, canvas, [role], [tabindex='0']")];
            const labels = (one) => [one.ariaLabel, one.getAttribute("aria-labelledby"), one.labels?.length];
            const isNameless = (one) => !one.textContent.trim() && !labels(one).some(Boolean);
            const needNone = ["row", "tooltip", "status", "gridcell"];
            return used.filter((one) => one.getClientRects().length && !needNone.includes(one.role) && isNameless(one))
                .map((one) => one.outerHTML.slice(0, 80));"""
        )
        self.assertEqual(nameless, [])
