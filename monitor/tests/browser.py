"""A page in headless Chromium, for tests and for the pictures of the docs."""

from __future__ import annotations

import shutil
from contextlib import contextmanager
from importlib.util import find_spec
from pathlib import Path
from typing import Any, Iterator, List


def missing() -> List[str]:
    """What a browser needs and is not here."""
    found = [name for name in ("chromium", "chromedriver") if not shutil.which(name)]
    return found if find_spec("selenium") else [*found, "python3-selenium"]


# of pages of `report` too
LACKING = [*missing(), *([] if Path("/usr/share/javascript/d3/d3.min.js").exists() else ["libjs-d3"])]


def wait_until(driver: Any, told: str, *given: Any) -> None:
    """Until a script says true: the browser draws anew, or has another page, some time after it is told to."""
    from selenium.webdriver.support.wait import WebDriverWait

    WebDriverWait(driver, 60, 0.05).until(lambda asked: asked.execute_script(told, *given))


@contextmanager
def browser(folder: Path, width: int = 1100, height: int = 900, dark: bool = False) -> Iterator[Any]:
    """A browser whose profile is in a folder, and which has no network."""
    from selenium import webdriver
    from selenium.webdriver.chrome.service import Service

    options = webdriver.ChromeOptions()
    options.binary_location = shutil.which("chromium") or ""
    # A root user has no sandbox, and a container little shared memory.
    for word in (
        "--headless=new",
        "--no-sandbox",
        "--disable-dev-shm-usage",
        "--disable-gpu",
        "--hide-scrollbars",
        "--host-resolver-rules=MAP * ~NOTFOUND",
        f"--user-data-dir={folder}/profile",
        f"--window-size={width},{height}",
        *(["--force-dark-mode", "--blink-settings=preferredColorScheme=0"] if dark else []),
    ):
        options.add_argument(word)
    options.set_capability("goog:loggingPrefs", {"browser": "ALL"})
    driver = webdriver.Chrome(service=Service(shutil.which("chromedriver")), options=options)
    # A busy machine may take long to draw.
    driver.set_page_load_timeout(600)
    driver.set_script_timeout(600)
    try:
        yield driver
    finally:
        driver.quit()
