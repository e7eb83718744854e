"""What a page draws, by its data: each rectangle, line, axis and text of the chart, and each row of the tables, at several zooms."""

from __future__ import annotations

import json
import re
from pathlib import Path
from typing import Any, Dict, List

import numpy
import pytest

import geometry
from browser import LACKING, wait_until
from geometry import Box, View
from rds_monitor.page.html import page_of, told_of
from rds_monitor.page.line import Counted, Lanes, TimeLine, said
from rds_monitor.page.overview import tile_of

pytestmark = [
    pytest.mark.skipif(bool(LACKING), reason="needs " + " and ".join(LACKING)),
    pytest.mark.xdist_group("browser"),
]
pytest.importorskip("jinja2")

# Two sessions with a hole between them.
SECOND, END = 4100.5, 7193.37
CHANGES = [
    ("pi", "D318"),
    ("ps", "ALPHA"),
    ("pty", "10 Pop music"),
    ("tp", "yes"),
    ("pi", "D319"),
    ("ps", "BETA"),
]


def counts(seconds: int, random: Any) -> Any:
    """Blocks by the second, no two kinds alike, and stretches without any, and in which none was read."""
    rows = numpy.zeros((seconds, 5), "i8")
    rows[:, 0] = random.integers(30, 60, seconds)
    rows[:, 2:] = random.integers(0, [9, 6, 4], (seconds, 3))
    rows[random.random(seconds) < 0.05, 2:] = 0
    rows[seconds // 2 : seconds // 2 + 90, 2:] = rows[seconds // 2 : seconds // 2 + 90, :1] * [0, 0, 1]
    rows[seconds // 3 : seconds // 3 + 90] = 0
    rows[:, 1] = rows[:, 0] - rows[:, 2:].sum(1)
    return rows


def made_line(seed: int) -> TimeLine:
    """Random lists of a line: of outages, groups, the clock and changes."""
    random, line, lanes = numpy.random.default_rng(seed), TimeLine(), Lanes()
    line.parts = [Counted(at, 1, counts(count, random)) for at, count in ((0.0, 3000), (SECOND, 3093))]
    line.sessions = [[0.0, 3000.0, 3000.0, 7, 5], [SECOND, END, END - SECOND, 9, 8]]
    begins = [*numpy.sort(random.uniform(0, 2900, 40)).tolist(), 4300.25, 4301.75, 6000.3]
    line.outages = [[at, at + 1.125 + 2 * (n % 3), 1.125 + 2 * (n % 3)] for n, at in enumerate(begins)]
    line.outages.append([6100.2, 6500.6, 400.4])
    names = [f"{n % 16}{'AB'[n // 16]}" for n in range(15)]
    mixes = random.integers(0, 60, (120, len(names)))
    line.mix = [
        [60.0 * n, 60.0 * n + 60, dict(zip(names, row.tolist()))] for n, row in enumerate(mixes) if n % 7
    ]
    line.clock = [[60.0 * n + 60, round(float(random.normal(-0.4, 0.2)), 3)] for n in range(100)]
    at = 1.5
    while at < END - 10:
        what = (
            said(*CHANGES[int(random.integers(len(CHANGES)))])
            if random.random() < 0.4
            else said("rt", f"Title {at:.0f}")
        )
        line.events.append([at, what.item, what.text])
        lanes.hear(at, what)
        at += float(random.choice([0.8, 3.7, 25.3, 60.1]))
    line.lanes, line.more = lanes.taken(END), 11
    return line


@pytest.fixture(scope="module")
def pages(tmp_path_factory: Any) -> Path:
    """Pages of two made stations: without a start, and with one and days that are cut to the quarter of an hour."""
    folder: Path = tmp_path_factory.mktemp("drawn")
    line = made_line(1)
    told = told_of("made", line, (0.0, END), None, {"PS": "ALPHA"}, tile_of([], END, 0.0))
    (folder / "hours.html").write_text(page_of("Pages", [told]), "utf-8")
    days, step = TimeLine(), 900
    random = numpy.random.default_rng(2)
    # numbers of two and of four bytes
    days.parts = [
        Counted(500.0 * step * n, step, counts(500, random) * many) for n, many in enumerate((700, 3000))
    ]
    days.sessions = [[0.0, 1000.0 * step, 1000.0 * step, 1, 1]]
    # three types more than there are colours
    rare = {f"{n}B": n + 1 for n in range(13)}
    days.mix = [[step * n, step * (n + 1), {"0A": 1 + n % 9, "2A": 2 + n % 5, **rare}] for n in range(1000)]
    days.outages = [[at, at + step, 3.5] for at in range(0, 1000 * step, 7 * step)]
    # A clock that is a quarter of an hour ahead: ticks of four digits.
    days.clock = [[float(step * n), 1000.0 + n % 7] for n in range(1, 1000)]
    told = told_of("days", days, (0.0, 1000.0 * step), 1774744200.0, {}, tile_of([], 900000.0, 0.0))
    (folder / "days.html").write_text(page_of("Pages", [told]), "utf-8")
    return folder


# All that a chart has, as the browser places it; and the rows below it.
LOOK = """
const svg = document.querySelector(".chart svg"), origin = svg.getBoundingClientRect();
const place = (it) => { const at = it.getBoundingClientRect(); return [at.x - origin.x, at.y - origin.y, at.width, at.height]; };
const titled = (it) => it.querySelector("title") ? it.querySelector("title").textContent : "";
const moved = (it) => it.transform.baseVal.consolidate().matrix;
const path = svg.querySelector(".clock path");
return {
  width: svg.parentElement.clientWidth,
  rects: [...svg.querySelectorAll("rect")].map((it) => [it.getAttribute("class"), ...place(it), titled(it), getComputedStyle(it).fill]),
  texts: [...svg.querySelectorAll(":scope > text")].map((it) => [+it.getAttribute("x"), +it.getAttribute("y"), it.textContent]),
  axes: [...svg.querySelectorAll("g.axis")].map((axis) => [...axis.querySelectorAll(".tick")].map(
    (it) => [moved(axis).e + moved(it).e, moved(axis).f + moved(it).f, it.textContent])),
  clock: path ? [path.getAttribute("d"), titled(path)] : null,
  told: document.querySelector("output").textContent,
  legend: Object.fromEntries([...document.querySelectorAll(".legend > span")].map((it) => [it.className, getComputedStyle(it).borderLeftColor])),
  types: [...document.querySelectorAll(".types > span")].map((it) => [it.textContent.trim(), getComputedStyle(it.querySelector("rect")).fill]),
  tables: Object.fromEntries(["sessions", "outages", "events"].map((name) => [name,
    [...document.querySelectorAll(`.${name} tbody tr`)].map((row) => [...row.children].map((it) => it.textContent))])),
};"""


def near(found: Any, wanted: Any) -> bool:
    """To a hundredth of a pixel."""
    return len(found) == len(wanted) and bool(numpy.all(abs(numpy.array(found) - numpy.array(wanted)) < 0.01))


def same(found: List[Any], wanted: List[Any]) -> None:
    """The same places and texts."""
    assert [row[-1] for row in found] == [row[-1] for row in wanted]
    places = [[[*row[:-1]] for row in rows] for rows in (found, wanted)]
    assert near(*places), next((pair for pair in zip(*places) if not near(*pair)), len(wanted))


def compare(seen: Dict[str, Any], view: View) -> None:
    """All that is drawn with all that the view has to have."""
    sums = geometry.counts_in(view)
    held = [box for box, _ in geometry.lanes(view)]
    wanted: Dict[str, List[Box]] = {
        **geometry.blocks(view, sums),
        "session": geometry.shares(view, "session", geometry.SESSIONS),
        "outage": geometry.shares(view, "outage", geometry.OUTAGES),
        "mix": [box for _, box in geometry.mix(view)],
        "item": held,
    }
    assert {row[0].split()[0] for row in seen["rects"]} <= {*wanted}
    for kind, boxes in wanted.items():
        same([row[1:6] for row in seen["rects"] if row[0].split()[0] == kind], boxes)
    same(sorted(seen["texts"]), sorted(geometry.texts(view)))
    for found, axis in zip(seen["axes"], geometry.axes(view)):
        same(sorted(found), sorted(axis))
    assert len(seen["axes"]) == len(geometry.axes(view))
    assert seen["told"] == geometry.bad_text(view, sums)
    assert seen["tables"] == geometry.tables(view)
    compare_clock(seen["clock"], view)
    compare_colours(seen, view)


def compare_clock(found: "List[str] | None", view: View) -> None:
    points, title, _ = geometry.clock(view)
    assert (found is not None) == bool(points)
    if found:
        drawn = [tuple(map(float, point.split(","))) for point in re.findall("[-.,0-9]+", found[0])]
        assert near(drawn, points) and found[1] == title


def compare_colours(seen: Dict[str, Any], view: View) -> None:
    """Each kind has the legend's colour, and no other kind's; and each type of groups its own."""
    legend, types = seen["legend"], {name: colour for name, colour in seen["types"]}
    assert [*types] == geometry.types_of(view.data) and len({*types.values()}) == len(types)
    kinds = [*"valid corrected lost missing outage session".split()]
    assert len({legend[name] for name in kinds}) == len(kinds)
    # red, green and blue; corrected ones are yellow
    shown = [[int(part) for part in re.findall(r"\d+", legend[name])] for name in kinds]
    assert [int(numpy.argmax(shown[at])) for at in (2, 0, 3)] == [0, 1, 2] and min(shown[1][:2]) > 150
    assert all(row[6] == legend[row[0]] for row in seen["rects"] if row[0] in kinds)
    drawn = [row[6] for row in seen["rects"] if row[0] == "mix"]
    assert drawn == [types[name] for name, _ in geometry.mix(view)]
    odd = [row[0] for row in seen["rects"] if row[0].startswith("item")]
    assert len({row[6] for row in seen["rects"] if row[0].startswith("item")}) == min(2, len({*odd}))


# Buttons that lead from one view to the next.
ZOOMS = {
    "hours": ["", "in in left right right", "minute" + 23 * " left", "out", "whole hour right right right"],
    "days": ["", "in in", "in left", "hour left left left"],
}
NARROW = {"width": 300, "height": 740, "deviceScaleFactor": 1, "mobile": False}
# Called after the page's own listener, which was there first.
NOTE_WIDTH = 'addEventListener("resize", () => { document.body.dataset.width = innerWidth; });'


def press(driver: Any, buttons: str) -> None:
    for button in buttons.split():
        driver.execute_script(f'document.querySelector("[data-zoom={button}]").click()')


@pytest.mark.parametrize("name", ZOOMS)
def test_charts(driver: Any, pages: Path, name: str) -> None:
    """At each zoom, and then in a window that is narrower than a chart may be."""
    driver.get((pages / f"{name}.html").as_uri())
    data = json.loads(driver.execute_script('return document.getElementById("data").textContent'))[0]
    view = geometry.whole(data, driver.execute_script(LOOK)["width"])
    for buttons in ZOOMS[name]:
        for button in buttons.split():
            view = geometry.whole(data, view.width) if button == "whole" else view.after(button)
        press(driver, buttons)
        compare(driver.execute_script(LOOK), view)
    driver.execute_script(NOTE_WIDTH)
    driver.execute_cdp_cmd("Emulation.setDeviceMetricsOverride", NARROW)
    try:
        wait_until(driver, 'return document.body.dataset.width === "300"')
        compare(driver.execute_script(LOOK), view._replace(width=320))
    finally:
        driver.execute_cdp_cmd("Emulation.clearDeviceMetricsOverride", {})
    assert driver.get_log("browser") == []
