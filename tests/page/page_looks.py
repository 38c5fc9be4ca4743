"""How the page looks: at several sizes, light and dark, without jumps."""

import re
import tempfile

from browser import SIZES, Page


class Looks(Page):
    """How it looks: at two sizes, light and dark, without jumps."""

    def places(self):
        script = """const parts = "header, #line, section, #bars, #legend, #figures, #worst-rows, footer";
            return [...document.querySelectorAll(parts)].map((one) => {
                const { x, y, width, height } = one.getBoundingClientRect();
                return [one.id || one.tagName, ...[x, y, width, one.id === "figures" ? 0 : height].map(Math.round)];
            });"""
        return self.js(script)

    def test_all_is_in_sight_and_nothing_jumps(self):
        in_sight = """const { scrollWidth, scrollHeight } = document.documentElement;
            return scrollWidth <= innerWidth && scrollHeight <= innerHeight;"""
        for width, height in SIZES:
            self.resize(width, height)
            self.open(self.server.address)
            before = self.places()
            self.assertTrue(self.js(in_sight))
            self.assertGreaterEqual(self.js("return rem()"), 13 if width < 2000 else 20)
            self.typed("#filter", "next_pid = ")
            self.until(lambda: self.text("#filter-message"))
            self.click_bar(3)
            self.click("#worst-0")
            self.until(lambda: self.js("return lanes.scene !== null"))
            self.js("document.querySelector('#ticks input').click()")
            self.until(lambda: len(self.figures()) == 2)
            self.assertEqual(self.places(), before)
            with tempfile.NamedTemporaryFile(suffix=".png") as file:
                self.assertTrue(self.driver.save_screenshot(file.name))

    def test_only_tables_scroll_sideways(self):
        boxes = """return [...document.querySelectorAll("body, body *")].filter((one) =>
            one.scrollWidth > one.clientWidth + 1 && ["auto", "scroll"].includes(getComputedStyle(one).overflowX)
            && !one.querySelector(":scope > table, :scope > [role=row]")).map((one) => one.id || one.outerHTML.slice(0, 80))"""
        cut = """return [...document.querySelectorAll("button, input, select, h1, h2, label")].filter((one) => {
            const { left, right, width } = one.getBoundingClientRect();
            return width && (left < 0 || right > innerWidth) && !one.closest("#worst-rows, table");
            }).map((one) => one.id || one.outerHTML.slice(0, 80))"""
        for width in (320, 390, 640, 1000, 1100, 1400):
            self.resize(width, 800)
            self.open(self.server.address)
            self.js("document.querySelector('#ticks input').click()")
            self.until(lambda: len(self.rows("#rows")))
            self.click("#worst-0")
            self.until(lambda: self.js("return lanes.scene !== null"))
            for tab in ("time", "wait", "table", "script", "strike"):
                self.js("openTab(arguments[0])", tab)
                with self.subTest(width=width, tab=tab):
                    self.assertLessEqual(self.js("return document.documentElement.scrollWidth"), width)
                    self.assertEqual(self.js(boxes), [])
                    self.assertEqual(self.js(cut), [])
            task = self.find("#worst-0 .c-name").rect
            self.assertGreater(task["width"], 40, width)
            self.assertLess(task["x"] + task["width"], width)

    def test_light_and_dark(self):
        ground = lambda: self.js("return getComputedStyle(document.body).backgroundColor")
        told = lambda name: self.driver.execute_cdp_cmd(
            "Emulation.setEmulatedMedia", {"features": [{"name": "prefers-color-scheme", "value": name}]}
        )
        told("light")
        light = ground()
        told("dark")
        dark = ground()
        self.assertNotEqual(light, dark)
        self.choose("#theme", "light")
        self.assertEqual(ground(), light)
        told("light")
        self.choose("#theme", "dark")
        self.assertEqual(ground(), dark)
        for name in ("light", "dark"):
            self.choose("#theme", name)
            for text, wanted in (("text", 7), ("quiet", 4.5), ("wrong", 4.5), ("text-0", 4.5), ("text-1", 4.5)):
                pair = self.js("forgetStyles(); return [colour(arguments[0]), colour('panel')]", text)
                self.assertGreaterEqual(contrast(*pair), wanted, (name, text))

    def test_a_browser_without_light_dark_has_both_palettes(self):
        colours = lambda: self.js("forgetStyles(); return ['ground', 'text', 'group-5', 'density-8'].map(colour)")
        wanted = {}
        for name in ("light", "dark"):
            self.choose("#theme", name)
            wanted[name] = colours()
        script = "const { supports } = CSS; CSS.supports = (...words) => words[0] !== 'color' && supports.apply(CSS, words);"
        added = self.driver.execute_cdp_cmd("Page.addScriptToEvaluateOnNewDocument", {"source": script})
        self.addCleanup(self.driver.execute_cdp_cmd, "Page.removeScriptToEvaluateOnNewDocument", added)
        self.open(self.server.address)
        for name in ("dark", "light"):
            self.choose("#theme", name)
            self.assertEqual(colours(), wanted[name])
            # They are set one by one, whatever the browser makes of the style sheet.
            ground = self.js("return document.documentElement.style.getPropertyValue('--ground')")
            self.assertEqual([int(ground[at : at + 2], 16) for at in (1, 3, 5)], rgb(wanted[name][0]))


def rgb(colour):
    """Return red, green and blue of a colour, as a browser writes it."""
    return [int(number) for number in re.findall("[0-9]+", colour)[:3]]


def contrast(one, other):
    """Return the contrast of two colours, as WCAG defines it."""
    levels = []
    for colour in (one, other):
        parts = [part / 255 for part in rgb(colour)]
        parts = [part / 12.92 if part <= 0.03928 else ((part + 0.055) / 1.055) ** 2.4 for part in parts]
        levels.append(0.2126 * parts[0] + 0.7152 * parts[1] + 0.0722 * parts[2] + 0.05)
    return max(levels) / min(levels)
