#!/usr/bin/env python3
"""Writes the pictures of the page that stand in the documents, docs/view.png and docs/view-dark.png, of a trace.

    page_pictures.py TRACE

bench/make_trace.py writes such a trace. This script needs what page.py needs.
"""

import os
import sys

# Nothing is written beside the sources.
sys.dont_write_bytecode = True

from browser import ROOT, Page, missing

SIZE = (1280, 720)


def light(page):
    """Show a wait of a bar, and the waits without some wakings."""
    page.js("choose(state.scale.bar(2000), null); worst.choose(3, true)")
    page.until(lambda: page.js("return lanes.scene !== null"))
    page.js(
        "const tick = document.querySelector('[data-strike$=\"common_cpu == 5\"]');"
        "tick.scrollIntoView({block: 'center'}); tick.click()"
    )
    page.until(lambda: page.js("return strikes.counts.length"))


def dark(page):
    """Show the longest wait among all CPUs, with a trigger's table."""
    page.choose("#theme", "dark")
    page.choose("#heights", "log")
    page.typed("#filter", "next_prio <= 120")
    page.until(lambda: page.js("return state.filter !== ''"))
    page.find("#tab-table").click()
    page.until(lambda: page.rows("#table-rows"))
    page.js("worst.choose(0, true)")
    page.until(lambda: page.js("return lanes.scene !== null"))
    page.find("#wait-place").click()
    page.until(lambda: "idle though" in page.text("#view-title"))


def main():
    if len(sys.argv) != 2 or missing():
        sys.exit(f"page_pictures.py TRACE; missing: {missing()}")
    folder, name = os.path.split(os.path.abspath(sys.argv[1]))
    # The page shows the path of the trace as it is given.
    os.chdir(folder)
    Page.words = (name,)
    Page.setUpClass()
    page = Page()
    try:
        for name, prepare in (("view", light), ("view-dark", dark)):
            page.resize(*SIZE)
            page.open(Page.server.address)
            prepare(page)
            # After a while, rows that changed have flashed, and all is drawn.
            page.js("document.activeElement.blur(); document.getElementById('tip').hidden = true")
            page.driver.execute_async_script("setTimeout(arguments[0], 2500)")
            page.driver.save_screenshot(os.path.join(ROOT, "docs", f"{name}.png"))
    finally:
        Page.tearDownClass()
        Page.shared.quit()


if __name__ == "__main__":
    main()
