"""What the tests of the page have in common under pytest: one browser, and a reason to skip them all if it isn't there."""

import sys
from pathlib import Path

import pytest

sys.path.insert(0, str(Path(__file__).resolve().parent))

import browser


def pytest_collection_modifyitems(items):
    """Skip all tests if something is missing that they need."""
    reason = browser.missing()
    if reason:
        for item in items:
            item.add_marker(pytest.mark.skip(reason=f"{reason} is missing"))


def pytest_sessionfinish():
    """Close the browser."""
    if hasattr(browser.Page, "shared"):
        browser.Page.shared.quit()
