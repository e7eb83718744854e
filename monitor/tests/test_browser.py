"""The page of `report` in a real browser: zoom, tiles, keys, texts of strangers, the console, and paper."""

from __future__ import annotations

import base64
import importlib
import re
from datetime import datetime
from pathlib import Path
from typing import Any, Iterator, List

import pytest

from browser import LACKING, wait_until
from conftest import monitor
from geometry import LEFT, RIGHT
from rds_monitor.content.charset import printable
from rds_monitor.page.html import page_of
from test_report import EVIL, station, told_line
from years import make_year

# In one worker, so that there is one browser.
pytestmark = [
    pytest.mark.skipif(bool(LACKING), reason="needs " + " and ".join(LACKING)),
    pytest.mark.xdist_group("browser"),
]
pytest.importorskip("jinja2")
Keys: Any = None if LACKING else importlib.import_module("selenium.webdriver.common.keys").Keys

START = ("--start", "2026-03-29T00:30:00Z")
SENT = "\u202eabc <img src=x onerror=alert(1)> A" + "\u0301" * 64 + "\x1b[31m 'q\" &lt;"
HOSTILE = printable(SENT)


@pytest.fixture(scope="module")
def folder(tmp_path_factory: Any) -> Path:
    """Pages: a station with an outage of two seconds within two hours, and three stations."""
    made: Path = tmp_path_factory.mktemp("pages")
    groups = station(text=EVIL, rounds=41000)
    (made / "long.bin").write_bytes(groups[:500000] + bytes(300) + groups[500300:])
    (made / "good.bin").write_bytes(station(0xD312, "good"))
    (made / "bad.bin").write_bytes(station(0xD313, "bad") + bytes(4000))
    write(made, "one", *START, "long.bin")
    write(made, "three", "good.bin", "bad.bin", "long.bin")
    for month, path in (("01", "good.bin"), ("07", "long.bin"), ("12", "bad.bin")):
        start = f"2025-{month}-31T00:30:00Z"
        words = ("--station", "Year", "--name", month, "--start", start, "year.db", path)
        assert monitor("db", *words, cwd=made).returncode == 0
    write(made, "year", "year.db")
    make_year(made / "years.db", ["Alpha"])
    assert monitor("report", "--into", "years", "years.db", cwd=made).returncode == 0
    mix = {f"{n}A": 10 * n for n in range(1, 13)}
    events = [[10 + 30 * n, "pty", str(n + 1)] for n in range(210)]
    counted = told_line(
        "counted",
        7200.0,
        [[45, 40, 3, 1, 1]] * 7200,
        events,
        outages=[[60, 61.5, 1.5], [5400, 5401, 1.0]],
        more=7,
        mix=[[0, 60, {**mix, "0A": 8, "15B": 9}], [60, 120, mix]],
    )
    (made / "counted.html").write_text(page_of("Pages", [counted]), "utf-8")
    texts, events = {"PS": HOSTILE, "RT": HOSTILE}, [[9, "rt", SENT], [9, "ps", SENT]]
    hostile = told_line(SENT, 600.0, [[45, 45, 0, 0, 0]] * 600, events, texts)
    (made / "hostile.html").write_text(page_of("Pages", [hostile]), "utf-8")
    return made


def write(folder: Path, name: str, *words: str) -> None:
    """The page of some inputs."""
    done = monitor("report", *words, cwd=folder)
    assert done.returncode == 0, done.stderr
    (folder / f"{name}.html").write_bytes(done.stdout)


@pytest.fixture
def opened(driver: Any, folder: Path) -> Iterator[Any]:
    def open_page(name: str) -> Any:
        driver.get((folder / f"{name}.html").as_uri())
        return driver

    yield open_page
    # Whatever the test did, nothing was refused by the policy and nothing failed.
    assert driver.get_log("browser") == []


def all_of(driver: Any, selector: str) -> List[Any]:
    return list(driver.find_elements("css selector", selector))


def seconds_in_view(driver: Any) -> int:
    """By the line above the chart."""
    text = all_of(driver, "output")[0].text
    first, last = (
        sum(60**k * int(text) for k, text in enumerate(reversed(found)))
        for found in re.findall(r"(\d\d):(\d\d):(\d\d)Z", text)
    )
    return int(last - first)


def begin_of_view(driver: Any) -> str:
    return str(all_of(driver, "output")[0].text[:20])


def click(driver: Any, zoom: str) -> None:
    driver.execute_script("arguments[0].click()", all_of(driver, f"[data-zoom={zoom}]")[0])


def follow(driver: Any, link: Any, end: str) -> None:
    """To the page of a link, whose address ends so."""
    driver.execute_script("arguments[0].click()", link)
    wait_until(
        driver, "return document.URL.endsWith(arguments[0]) && document.readyState === 'complete'", end
    )


def test_zoom_from_a_year_to_a_minute(opened: Any) -> None:
    """At each zoom bars of blocks are drawn; the page of a year says 11 months of it."""
    page = opened("year")

    def view() -> List[datetime]:
        text, form = all_of(page, "output")[0].text, "%Y-%m-%d %H:%M:%S"
        return [
            datetime.strptime(one, form) for one in re.findall(r"(\d{4}-\d\d-\d\d \d\d:\d\d:\d\d)Z", text)
        ]

    first, last = view()
    assert first == datetime(2025, 1, 31, 0, 30) and 334 <= (last - first).days <= 335
    assert all_of(page, "rect.valid")
    assert len(all_of(page, "rect.session")) == 3
    assert len(all_of(page, "rect.outage")) >= 1
    zooms = 0
    while (view()[1] - view()[0]).total_seconds() > 60:
        click(page, "in")
        # To the first session, which is at the left end.
        for _ in range(2):
            click(page, "left")
        zooms += 1
        assert all_of(page, "rect.valid"), view()
    assert zooms == 19 and view()[0] == first


def test_zoom_by_keys(opened: Any) -> None:
    page = opened("one")
    whole, chart = seconds_in_view(page), all_of(page, ".chart")[0]
    page.execute_script("arguments[0].focus()", chart)
    chart.send_keys("+=")
    assert abs(seconds_in_view(page) - whole / 4) <= 1
    chart.send_keys("-")
    assert abs(seconds_in_view(page) - whole / 2) <= 1
    middle = begin_of_view(page)
    chart.send_keys(Keys.ARROW_LEFT)
    assert begin_of_view(page) < middle
    chart.send_keys(Keys.ARROW_RIGHT)
    assert begin_of_view(page) == middle
    chart.send_keys(Keys.HOME)
    assert seconds_in_view(page) == whole
    # With a further key they are the browser's own.
    press = "arguments[0].dispatchEvent(new KeyboardEvent('keydown', {key: '+', [arguments[1]]: true}))"
    for name in ("ctrlKey", "metaKey", "altKey"):
        page.execute_script(press, chart, name)
        assert seconds_in_view(page) == whole
    # By the wheel the second below the pointer stays where it is.
    left, width = page.execute_script(
        "const it = arguments[0].getBoundingClientRect(); return [it.left, it.width]", chart
    )
    pointed, begin = whole * (300 - left - LEFT) / (width - LEFT - RIGHT), begin_of_view(page)
    for up, share in ((-1, 0.8), (1, 1.0)):
        wheel = "arguments[0].dispatchEvent(new WheelEvent('wheel', {deltaY: arguments[1], clientX: 300}))"
        page.execute_script(wheel, chart, up)
        assert abs(seconds_in_view(page) - share * whole) <= 1
        moved = datetime.fromisoformat(begin_of_view(page)[:19]) - datetime.fromisoformat(begin[:19])
        assert abs(moved.total_seconds() - (1 - share) * pointed) < 5 and pointed > 500
    for name, seconds in (("minute", 60), ("hour", 3600), ("day", whole)):
        click(page, name)
        assert seconds_in_view(page) == seconds


def drawn(page: Any, kind: str, part: str = "width") -> List[float]:
    read = "return [...document.querySelectorAll(arguments[0])].map((it) => +it.getAttribute(arguments[1]))"
    return list(page.execute_script(read, f"rect.{kind}", part))


def texts(page: Any, selector: str) -> List[str]:
    """The texts of all such elements, in one call of the browser."""
    return list(
        page.execute_script(
            "return [...document.querySelectorAll(arguments[0])].map((it) => it.textContent)", selector
        )
    )


def test_pages_of_a_year(opened: Any, folder: Path) -> None:
    """From the overview to a year by days and a month by hours. Outages are drawn by their share, a constant PI as one strip."""
    page = opened("years/index")
    follow(page, all_of(page, "table a")[0], "/Alpha-2025.html")
    width = sum(drawn(page, "session"))
    lanes = texts(page, "rect.item title")
    assert [lane.split(" from ")[0] for lane in lanes if lane[:2] in ("PI", "AF")] == ["PI", "AF"]
    assert lanes[0].endswith(": D318") and drawn(page, "item")[0] == pytest.approx(width, abs=4)
    # Two seconds of each hour, and in March three days: 0.06 % are a line of a pixel, and these days are whole bars.
    heights = drawn(page, "outage", "height")
    assert max(heights) == max(drawn(page, "session", "height")) > 10
    lines = sum(wide for wide, high in zip(drawn(page, "outage"), heights) if high == 1)
    assert lines == pytest.approx(width * 362 / 365, abs=4) and sum(drawn(page, "outage")) == pytest.approx(
        width, abs=4
    )
    rows = texts(page, ".outages tbody tr")
    assert rows[0] == "2025-01-01 00:00:00Z2025-01-02 00:00:00Z48.000" and rows[-1] == "165 more: zoom in"
    follow(page, page.find_element("link text", "2025-03"), "/Alpha-2025-03.html")
    assert begin_of_view(page) == "2025-03-01 00:00:00Z"
    click(page, "hour")
    click(page, "left")
    assert all_of(page, "rect.valid") and drawn(page, "outage", "height")
    for link, end in (
        ("2025-04", "/Alpha-2025-04.html"),
        ("2025", "/Alpha-2025.html"),
        ("all stations", "/index.html"),
    ):
        (found,) = [one for one in all_of(page, "p a") if one.text == link]
        follow(page, found, end)


# Words that are on two lines.
BROKEN = """
const found = [], texts = document.createTreeWalker(document.body, NodeFilter.SHOW_TEXT);
while (texts.nextNode()) {
  const text = texts.currentNode;
  if (text.parentElement.closest("script, svg")) continue;
  for (const word of text.data.matchAll(/\\S+/g)) {
    const range = document.createRange();
    range.setStart(text, word.index);
    range.setEnd(text, word.index + word[0].length);
    if (new Set([...range.getClientRects()].map((it) => it.top)).size > 1) found.push(word[0]);
  }
}
return found;"""


@pytest.mark.parametrize("name", ["years/index", "years/Alpha-2025", "years/Alpha-2025-03", "counted"])
def test_on_a_phone_no_word_breaks(opened: Any, name: str) -> None:
    page = opened(name)
    size = {"width": 360, "height": 740, "deviceScaleFactor": 1, "mobile": True}
    page.execute_cdp_cmd("Emulation.setDeviceMetricsOverride", size)
    try:
        page.refresh()
        wait_until(page, "return innerWidth === 360")
        assert page.execute_script(BROKEN) == []
        assert page.execute_script("return document.documentElement.scrollWidth") == 360
    finally:
        page.execute_cdp_cmd("Emulation.clearDeviceMetricsOverride", {})


def test_local_time(opened: Any) -> None:
    page = opened("one")
    before = all_of(page, "output")[0].text
    page.execute_script("arguments[0].click()", all_of(page, "[data-local]")[0])
    wanted = page.execute_script("return new Date(Date.UTC(2026, 2, 29, 0, 30)).toLocaleString()")
    assert before.startswith("2026-03-29 00:30:00Z to ") and all_of(page, "output")[0].text.startswith(wanted)


def test_tiles_of_three_stations_the_worst_first(opened: Any) -> None:
    page = opened("three")
    tiles = all_of(page, ".tiles a")
    names, alarms = (
        [tile.find_element("css selector", part).text for tile in tiles] for part in (".file", "strong")
    )
    assert names == ["bad.bin", "good.bin", "long.bin"]
    assert alarms == ["no whole group for 27 s", "no alarm", "no alarm"]
    assert "D313" in tiles[0].text and "bad" in tiles[0].text and tiles[0].get_attribute("class") == "alarm"
    assert len(all_of(page, ".tiles polyline")) == 3 and len(all_of(page, ".chart svg")) == 3
    follow(page, tiles[2], "#station-2")


def test_markup_in_radiotext_is_text(opened: Any) -> None:
    page = opened("one")
    assert len(all_of(page, "script")) == 3
    assert EVIL in texts(page, ".events td")
    assert any(text.endswith(EVIL) for text in texts(page, "rect.item title"))


def test_hostile_texts_stay_where_they_are(opened: Any) -> None:
    page = opened("hostile")
    assert not all_of(page, "img") and len(all_of(page, "script")) == 3
    found = [element for element in all_of(page, "td bdi") if element.text == HOSTILE]
    assert len(found) == 4
    lines = page.execute_script("return arguments[0].getBoundingClientRect().height / 16", found[0])
    # Two marks of the 64 are drawn, and all others written.
    assert lines < 20 and "\\u202e" in HOSTILE and "\\x1b" in HOSTILE and HOSTILE.count("\u0301") == 2


def test_it_is_read_aloud(opened: Any) -> None:
    page = opened("three")
    for chart in all_of(page, ".chart"):
        assert chart.get_attribute("role") == "img"
        assert "blocks sent are valid" in chart.get_attribute("aria-label")
        assert chart.get_attribute("tabindex") == "0"
    assert all(element.get_attribute("aria-label") for element in all_of(page, "section"))
    assert len(all_of(page, "output[aria-live=polite]")) == 3
    assert all(element.text for element in all_of(page, "caption")) and len(all_of(page, "html[lang]")) == 1


def test_dark_and_light(opened: Any) -> None:
    colours = []
    for scheme in ("light", "dark"):
        page = opened("one")
        feature = {"name": "prefers-color-scheme", "value": scheme}
        page.execute_cdp_cmd("Emulation.setEmulatedMedia", {"features": [feature]})
        wait_until(page, "return matchMedia(`(prefers-color-scheme: ${arguments[0]})`).matches", scheme)
        colours.append(page.execute_script("return getComputedStyle(document.body).color"))
    page.execute_cdp_cmd("Emulation.setEmulatedMedia", {"features": []})
    assert colours == ["rgb(0, 0, 0)", "rgb(255, 255, 255)"]


# By page and medium: elements, and what the style makes of them.
HELD, ALARM, MISSING = "rgb(255, 255, 255)", "rgb(192, 57, 43)", "rgb(48, 96, 160)"
STYLES = {
    ("one", "screen"): [
        (".chart text.held", "fill", HELD),
        (".chart", "overflow-x", "hidden"),
        (".chart svg", "display", "block"),
        (".chart rect", "shape-rendering", "crispedges"),
        (".axis path", "fill", "none"),
        (".controls", "display", "flex"),
        (".wide", "overflow-x", "auto"),
        (".wide td", "white-space", "nowrap"),
        (".wide td.text", "white-space", "normal"),
        ("bdi", "overflow-x", "hidden"),
        ("caption", "text-align", "left"),
    ],
    ("years/Alpha-2025", "screen"): [(".clock path", "fill", "none"), (".clock path", "stroke", MISSING)],
    ("one", "print"): [(".controls", "display", "none"), (".chart", "break-inside", "avoid")],
    ("three", "print"): [
        ("section + section", "break-before", "page"),
        (".tiles li", "break-inside", "avoid"),
        ("rect", "print-color-adjust", "exact"),
    ],
    ("three", "screen"): [
        (".tiles", "display", "flex"),
        (".tiles a.alarm", "border-top-color", ALARM),
        (".tiles a.alarm strong", "color", ALARM),
        (".tiles .text", "text-overflow", "ellipsis"),
        (".tiles .text", "white-space", "nowrap"),
        (".tiles polyline", "stroke", ALARM),
        (".tiles polyline", "fill", "none"),
    ],
}


@pytest.mark.parametrize("name, medium", STYLES)
def test_styles(opened: Any, name: str, medium: str) -> None:
    page, wanted = opened(name), STYLES[name, medium]
    page.execute_cdp_cmd("Emulation.setEmulatedMedia", {"media": medium})
    read = "return arguments[0].map(([of, name]) => getComputedStyle(document.querySelector(of)).getPropertyValue(name))"
    found = page.execute_script(read, [row[:2] for row in wanted])
    page.execute_cdp_cmd("Emulation.setEmulatedMedia", {"media": ""})
    assert [(*row[:2], value) for row, value in zip(wanted, found)] == wanted


def test_it_prints_on_a4(opened: Any) -> None:
    page = opened("one")
    paper = base64.b64decode(page.execute_cdp_cmd("Page.printToPDF", {"preferCSSPageSize": True})["data"])
    assert paper.startswith(b"%PDF")
    sizes = re.findall(rb"/MediaBox ?\[ ?0 0 ([\d.]+) ([\d.]+)\]", paper)
    assert sizes and all((round(float(size[0])), round(float(size[1]))) == (595, 842) for size in sizes)
