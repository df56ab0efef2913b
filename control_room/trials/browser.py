"""Chromium without a window, for the trials of the page."""
import shutil
import unittest
from contextlib import contextmanager
from typing import Any, Iterator

DRIVER = "/usr/bin/chromedriver"


def has_selenium() -> bool:
    """Returns whether selenium is there."""
    try:
        import selenium  # noqa: F401
    except ImportError:
        return False
    return True


def needs_browser(test: type) -> type:
    """Skips a trial by name where chromium or selenium are missing."""
    found = {"chromium": shutil.which("chromium"), "chromium-driver": shutil.which(DRIVER), "python3-selenium": has_selenium()}
    missing = [name for name, there in found.items() if not there]
    return unittest.skipIf(missing, "missing: " + ", ".join(missing))(test)


@contextmanager
def browser(width: int, height: int, is_telephone: bool = False) -> Iterator[Any]:
    """Gives a browser with a window of this size, and ends it."""
    from selenium import webdriver
    from selenium.webdriver.chrome.options import Options
    from selenium.webdriver.chrome.service import Service

    options = Options()
    for word in ("headless=new", "no-sandbox", "disable-gpu", "disable-dev-shm-usage", "hide-scrollbars", f"window-size={width},{height}"):
        options.add_argument("--" + word)
    if is_telephone:
        options.add_experimental_option("mobileEmulation", {"deviceMetrics": {"width": width, "height": height, "pixelRatio": 1.0}})
    options.set_capability("goog:loggingPrefs", {"browser": "ALL"})
    driver = webdriver.Chrome(service=Service(DRIVER), options=options)
    try:
        yield driver
    finally:
        driver.quit()
