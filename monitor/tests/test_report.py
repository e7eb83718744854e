"""The command report: its page holds the counts, needs nothing else, and shows texts of strangers as text."""

from __future__ import annotations

import base64
import csv
import hashlib
import json
import os
import re
import sqlite3
from pathlib import Path
from types import SimpleNamespace
from typing import Any, Dict, List, Tuple

import numpy
import pytest
from conftest import encode, monitor, rds
from made import peak_memory
from rds_monitor.capture.picture import picture_of
from rds_monitor.capture.stations import HEAD
from rds_monitor.db.store import Store
from rds_monitor.page.html import page_of, told_of
from rds_monitor.page.line import COUNTS, Counted, Lanes, TimeLine, bad_percent, encoded, said
from rds_monitor.page.overview import Span, last_minute, line_of, polyline, tile_of
from rds_monitor.page.report import MOST_STORED, RecordedLine
from rds_monitor.page.stored import MAGIC, Stored, StoredStation
from rds_monitor.rows.clock import Clock
from rds_monitor.signal.found import Spectrum
from rds_monitor.signal.several import Tuning

from years import MINUTES, MIX, OUTAGE, RATE, make_year

pytest.importorskip("jinja2")
D3 = os.environ.get("RDS_D3", "/usr/share/javascript/d3/d3.min.js")
needs_d3 = pytest.mark.skipif(not os.path.exists(D3), reason="needs libjs-d3")

EVIL = "<script>alert(\"1\")</script> &amp; 'q' x"


def station(pi: int = 0xD393, text: str = "hello", rounds: int = 40) -> bytes:
    """Groups 0A and 2A of a station whose RT is the text."""
    text = (text + " " * 64)[:64]
    groups: List[List[int]] = []
    for n in range(rounds):
        k = n % 16
        groups.append([pi, 0x0408 | n % 4, 0xE0E0, [0x5041, 0x584F, 0x4C49, 0x4455][n % 4]])
        signs = [ord(row) for row in text[4 * k : 4 * k + 4]]
        groups.append([pi, 0x2400 | k, signs[0] << 8 | signs[1], signs[2] << 8 | signs[3]])
    return encode(groups)


def page(*words: Any, data: bytes = b"") -> str:
    done = monitor("report", *words, data=data)
    assert done.returncode == 0, done.stderr.decode()
    return done.stdout.decode()


def data_of(text: str) -> List[Dict[str, Any]]:
    found = re.search(r'<script type="application/json" id="data">(.*?)</script>', text, re.S)
    assert found
    return list(json.loads(found[1]))


def told_line(
    name: str, end: float, counts: Any, events: Any = (), held: Any = {}, **lists: Any
) -> Dict[str, Any]:
    """A station with these blocks by seconds, events of time, item and value, and lists of its line."""
    line, lanes = TimeLine(), Lanes()
    line.parts = [Counted(0.0, 1, numpy.array(counts, "i8"))]
    line.sessions = [[0.0, end, end, *line.parts[0].counts.sum(0)[:2].tolist()]]
    for at, item, value in events:
        line.events.append([at, said(item, value).item, said(item, value).text])
        lanes.hear(at, said(item, value))
    line.lanes = lanes.taken(end)
    vars(line).update(lists)
    return told_of(name, line, (0.0, end), None, held, tile_of([], end, 0.0))


def events_of(told: Dict[str, Any]) -> List[Any]:
    return [[at, item, told["texts"][number]] for at, item, number in told["events"]]


def test_sizes_of_numbers() -> None:
    """Each count fits into its bytes, at the edges too."""
    for most, size in ((255, 1), (256, 2), (65535, 2), (65536, 4)):
        counts = numpy.array([[most, 0, 0, 1, most], [1, 1, 0, 0, 0]], "i8")
        made = encoded(counts)
        columns = {}
        for name in ("sent", "lost", "missing"):
            columns[name] = numpy.frombuffer(base64.b64decode(made[name]), f"<u{size}").tolist()
        assert made["bytes"] == str(size)
        assert columns == {"sent": [most, 1], "lost": [1, 0], "missing": [most, 0]}


def test_long_lists_have_a_row_per_step() -> None:
    """Sums stay, a time over several steps has its share in each, and items that change most are left out first."""
    line = TimeLine()
    line.parts = [Counted(0.0, 60, numpy.array([[100, 90, 5, 3, 2]] * 180))]
    line.outages = [[60.0 * n, 60.0 * n + 6, 6.0] for n in range(180)] + [[10798.0, 10802.0, 4.0]]
    line.mix = [[60.0 * n, 60.0 * n + 60, {"0A": 2, "2A": n}] for n in range(180)]
    line.clock = [[60.0 * n, 0.5 + n // 60] for n in range(180)]
    line.events = [[60.0 * n, "RT", str(n)] for n in range(180)] + [[5.0, "PS", "X"]]
    line.lanes = {
        "PS": [(0.0, 10800.0, "X")],
        "RT": [(60.0 * n, 60.0 * n + 60, str(max(n, 60))) for n in range(180)],
        "PTY": [(0.0, 8000.0, "A"), *((8000.0 + n, 8001.0 + n, str(n)) for n in range(20))],
    }
    few = line.fewer(3600, 20)
    assert few.parts[0].counts.tolist() == [[6000, 5400, 300, 180, 120]] * 3 and few.parts[0].step == 3600
    assert few.outages == [[0, 3600, 360], [3600, 7200, 360], [7200, 10800, 362], [10800, 14400, 2]]
    assert few.mix == [
        [3600 * k, 3600 * k + 3600, {"0A": 120, "2A": sum(range(60 * k, 60 * k + 60))}] for k in range(3)
    ]
    assert few.clock == [[1800, 0.5], [5400, 1.5], [9000, 2.5]]
    assert few.events == [[5.0, "PS", "X"]] and few.more == 180
    assert few.lanes == {
        "PS": [(0, 10800, "X")],
        "RT": [(0, 3600, "60"), (3600, 10800, "several texts")],
        "PTY": [(0, 7200, "A"), (7200, 10800, "several texts")],
    }
    assert few.fewer(3600, 20).told(0) == few.told(0) and line.fewer(60).told(0) == line.told(0)
    assert line.fewer(120).parts[0].counts.tolist() == [[200, 180, 10, 6, 4]] * 90
    told = line.told(-0.0056)
    assert told["parts"][0]["at"] == told["events"][0][0] == told["outages"][0][0] == 0.006
    # As many rows as a list may have are left as they are; of one item alone there are the first ones.
    whole, cut = line.fewer(3600, 181), line.fewer(3600, 180)
    assert (whole.outages, whole.events, whole.more) == (line.outages, line.events, 0)
    assert (cut.mix, cut.clock, cut.lanes) == (line.mix, line.clock, line.lanes) and len(cut.outages) == 4
    for count in (2000, 2001):
        line.outages = [[n, n + 1, 1] for n in range(count)]
        line.events = [[n, "RT", ""] for n in range(count)]
        few = line.fewer(3000)
        assert (few.events, few.more) == (line.events[:2000], count - 2000)
        assert few.outages == (line.outages if count == 2000 else [[0, 3000, 2001]])


def test_lanes() -> None:
    """A text holds until it changes, the PI does or its session ends; one that is told again goes on."""
    lanes = Lanes()
    heard = [
        (1, "pi", "D393"),
        (2, "ps", "no time"),
        (2, "ps", "A"),
        (3, "ps", "B"),
        (4, "tp", None),
        (5, "pi", "D394"),
        (6, "ps", "B"),
        (8, "ps", "B"),
    ]
    for at, item, value in heard:
        lanes.hear(at, said(item, value))
    assert lanes.taken(9) == {
        "PI": [(1, 5, "D393"), (5, 9, "D394")],
        "PS": [(2, 3, "A"), (3, 5, "B"), (6, 9, "B")],
    }
    lanes.end(10)
    for at, item, value in (
        (11, "eon:D312.ps", "OTHER"),
        (12, "eon:D312.ps", None),
        (12, "rt", "C"),
        (13, "rt", None),
    ):
        lanes.hear(at, said(item, value))
    for at in (13.0625, 14.1875):
        lanes.hear(at, said("rt", "C"))
        lanes.end(at + 1)
    assert lanes.taken(16) == {
        "PI": [(9, 10, "D394")],
        "PS": [(9, 10, "B")],
        "EON": [(11, 12, "D312 PS: OTHER")],
        "RT": [(12, 14.0625, "C"), (14.1875, 15.1875, "C")],
    }


@pytest.mark.parametrize(
    "silent, bad, alarm",
    [(10, 50, ""), (10.6, 0, "no whole group for 11 s"), (None, 51, "51 % bad blocks in the last minute")],
)
def test_when_a_tile_has_an_alarm(silent: Any, bad: int, alarm: str) -> None:
    spans = [Span(0, 1, numpy.array([100] * 100), numpy.array([0] * 40 + [100 - bad] * 60))]
    assert tile_of(spans, 100.0, silent)["alarm"] == alarm


def test_lines_of_a_tile() -> None:
    """The last quarter of an hour is the last point; 0 per cent is at the bottom, and nothing received is no line."""
    assert polyline([None, 0.0, 100.0, None, 50.0]) == ["1,20.0 2,20.0 2,0.0 3,0.0", "4,10.0 5,10.0"]
    line = line_of([Span(0, 900, numpy.array([10] * 2), numpy.array([10, 5]))], 1800.0)
    assert line == [None] * 94 + [0.0, 50.0]
    assert line_of([], 5.0) == [None] * 96
    # The day begins and ends inside the recording.
    older = Span(-900, 900, numpy.array([100] * 99), numpy.arange(99))
    assert line_of([older], 86400 + 900.0) == [100.0 - valid for valid in range(2, 98)]
    assert last_minute([]) is bad_percent(0, 0) is None


@pytest.mark.parametrize("step, count", [(1, 60), (20, 3), (59, 1), (60, 1), (3600, 1)])
def test_the_last_minute_of_steps(step: int, count: int) -> None:
    valid = numpy.array([0] + [100] * count)
    assert last_minute([Span(0, step, valid * 0 + 100, valid)]) == 0.0
    assert last_minute([Span(0, step, valid * 0 + 100, valid[::-1])]) == round(100 / count, 2)
    # A recording may be shorter than a minute.
    assert last_minute([Span(0, step, valid[:2] * 0 + 100, valid[:2])]) == (50.0 if count > 1 else 0.0)
    short = [Span(0, step, numpy.pad(valid * 0 + 100, 1), numpy.pad(valid, 1))]
    assert last_minute(short) == last_minute([*short, short[0]._replace(sent=valid * 0)]) == 0.0


def drawn(power: Any) -> str:
    """The picture of a spectrum with a station, 380 kHz from its begin."""
    offsets = numpy.linspace(-48e4, 47e4, len(power))
    rows = [("97.9M", "-9.0", "20.0", "D317", "-")]
    return picture_of(Spectrum(power, offsets), Tuning(98e6, 960000), [-1e5], HEAD, rows)


def points_of(picture: str) -> List[str]:
    return re.findall(r'<polyline points="([^"]*)"', picture)[0].split()


def test_places_in_the_picture_of_a_spectrum() -> None:
    """Its 1200 by 320 are 950 kHz by 10 dB, of which 0 dB is at the bottom."""
    picture = drawn(numpy.ones(96))
    assert re.findall(r'<text x="2" y="([\d.]+)">(-?\d+) dB', picture) == [("318.0", "0"), ("11.0", "10")]
    assert '<text x="480.0" y="332" text-anchor="middle">97.9M</text>' in picture
    assert '<text x="483.0" y="12">D317</text>' in picture
    assert points_of(picture) == [f"{1200 * n / 95:.1f},320.0" for n in range(96)]


def test_means_of_a_spectrum_and_silence() -> None:
    """Of 1 and 3 the mean is 3.01 dB. No power is drawn as -200 dB."""
    points = points_of(drawn(numpy.array([1.0, 3.0] * 602)))
    assert len(points) == 602 and {point.split(",")[1] for point in points} == {"223.7"}
    assert len(points_of(drawn(numpy.ones(1200)))) == 1200
    assert re.findall(r">(-?\d+) dB", drawn(numpy.zeros(96))) == ["-200", "-190"]


@needs_d3
def test_scripts_and_style_are_those_of_the_policy() -> None:
    text = page(data=station())
    policy = re.search(r'http-equiv="Content-Security-Policy" content="([^"]*)"', text)
    assert policy and "default-src &#39;none&#39;" in policy[1]
    allowed = re.findall(r"sha256-[A-Za-z0-9+/=]+", policy[1].replace("&#43;", "+"))
    parts = re.findall(r"<style>(.*?)</style>|<script>(.*?)</script>", text, re.S)
    digests = [hashlib.sha256((part[0] or part[1]).encode()).digest() for part in parts]
    hashes = [f"sha256-{base64.b64encode(digest).decode()}" for digest in digests]
    assert len(hashes) == 3 and sorted(hashes) == sorted(allowed)
    rest = re.sub(r"<script>.*?</script>", "", text, flags=re.S)
    assert not re.search(r"""\son[a-z]+\s*=\s*["']|(?:src|href)="(?!#)""", rest)


@needs_d3
def test_texts_of_a_station_are_shown_as_text() -> None:
    text = page(data=station(text=EVIL))
    assert any(text.startswith("<script>alert") for text in data_of(text)[0]["texts"])
    rest = re.sub(r"<script>.*?</script>", "", text, flags=re.S)
    assert "<script>alert" not in text and "&lt;script&gt;alert(&#34;1&#34;)" in rest


# Of stations as a page has them: the alarm, per cent of the last minute and of all blocks that are bad, and the name.
WORST_FIRST = [("no RDS", None, None, "z"), ("", 3.0, 1.0, "y"), ("", 0.5, 9.0, "x"), ("", 0.5, 5.0, "w")]
WORST_FIRST += [("", None, 0.5, "v"), ("", 0.0, None, "good's <b>"), ("", None, 0.0, "u")]


@needs_d3
def test_several_stations_the_worst_first() -> None:
    """An empty text is no content."""
    whole, stations = told_line("it", 9, [[9, 9, 0, 0, 0]], held={"PS": "", "RT": "text"}), []
    for alarm, minute, bad, name in reversed(WORST_FIRST):
        tile = {**whole["tile"], "alarm": alarm, "minute": minute}
        stations.append({**whole, "name": name, "tile": tile, "bad_percent": bad})
    text = page_of("Stations", stations)
    assert [datum["name"] for datum in data_of(text)] == [name for *_, name in WORST_FIRST]
    assert data_of(text)[0]["held"] == {"RT": "text"}
    assert "<h2>Overview</h2>" in text and "good&#39;s &lt;b&gt;" in text


@needs_d3
def test_a_day_is_below_a_megabyte(tmp_path: Path) -> None:
    path = tmp_path / "day.bin"
    # 20,000 rounds each; after 16 the groups are the same again
    path.write_bytes(b"".join(1250 * station(text=f"hour {number}", rounds=16) for number in range(24)))
    text = page("--start", "2026-03-29T00:30:00Z", path)
    told = data_of(text)[0]
    assert 80000 < told["end"] < 86400 and len(told["mix"]) > 1300
    assert 500_000 < len(text) < 1_000_000


@needs_d3
@pytest.mark.parametrize("seconds, step", [(86400, 1), (86401, 2)])
def test_an_interval_per_second_of_a_day(seconds: int, step: int, station_listing: bytes) -> None:
    words = ("--length", int(seconds * 1187.5), "--trust-length")
    (part,) = data_of(page(*words, data=station_listing))[0]["parts"]
    assert part["step"] == step


@pytest.mark.parametrize("minutes, step", [(86400, 120), (86401, 3600)])
def test_bars_of_sixty_days(minutes: int, step: int) -> None:
    """Of all stations together: of two minutes each, and of more days of an hour."""
    stored = SimpleNamespace(rows=lambda query: [(minutes,)])
    assert Stored.step(stored, MOST_STORED) == step  # type: ignore[arg-type]


@pytest.mark.parametrize("seconds, step", [(900, 1), (9000, 4.5)])
def test_steps_of_the_lists_of_a_recording(seconds: int, step: float) -> None:
    """A second at least, or a two-thousandth of it."""
    recorded = RecordedLine(Clock(None, RATE))
    recorded._end, recorded._line.outages = seconds, [[n / 4, n / 4, 1] for n in range(2001)]
    assert recorded.told("it")["outages"][:2] == [[0, step, 4 * step], [step, 2 * step, 4 * step]]


@needs_d3
def test_a_tile_tells_the_last_minute_and_the_last_whole_group(tmp_path: Path) -> None:
    (tmp_path / "it.bin").write_bytes(station(rounds=2000) + bytes(3000))
    told = data_of(page(tmp_path / "it.bin"))[0]
    assert abs(told["tile"]["silent"] - 3000 * 8 / 1187.5) < 0.2
    assert told["tile"]["alarm"] == "no whole group for 20 s"
    assert abs(told["tile"]["minute"] - 100 * 20.2 / 60) < 2
    line = told["tile"]["line"]
    assert len(line) == 96 and line[:95] == [None] * 95 and abs(line[95] - told["bad_percent"]) < 0.01


@needs_d3
@pytest.mark.parametrize("block", range(4))
def test_a_whole_group_has_four_blocks(block: int) -> None:
    """Of the last twenty groups one block cannot be corrected."""
    bits = numpy.unpackbits(numpy.frombuffer(station(), "u1")).reshape(-1, 104)
    bits[-20:, 26 * block : 26 * block + 26 : 5] ^= 1
    assert data_of(page(data=numpy.packbits(bits).tobytes()))[0]["tile"]["silent"] == round(
        20 * 104 / 1187.5, 1
    )


@needs_d3
def test_sessions_of_a_stream_are_on_one_line_of_time() -> None:
    listing = rds("list", data=station())
    told = data_of(page("--trust-length", data=listing + listing))[0]
    (begin, end, seconds, sent, valid), second = told["sessions"]
    assert (begin, end) == (0, seconds) and abs(told["end"] - 2 * end) < 0.002
    assert second == [end, told["end"], seconds, sent, valid] and told["totals"]["sent"] == 2 * sent
    assert told["name"] == "standard input" and [row[0] for row in told["mix"]] == [0, end]
    events = events_of(told)
    once, again = events[: len(events) // 2], events[len(events) // 2 :]
    assert once and [event[1:] for event in once] == [event[1:] for event in again]
    assert all(abs(one[0] + end - other[0]) < 0.002 for one, other in zip(once, again))


@needs_d3
def test_of_changes_in_a_minute_six_are_listed() -> None:
    """Ten of PTY come in each session; the others are counted."""
    groups = [[0xD393, 0x0408 | pty << 5 | n, 0xE0E0, 0x2020] for pty in range(10) for n in range(4)]
    listing = rds("list", data=encode(groups))
    told = data_of(page("--trust-length", data=listing + listing))[0]
    assert (told["more"], [item for _, item, _ in told["events"]].count("PTY")) == (8, 12)


@needs_d3
def test_stations_of_a_database(tmp_path: Path, station: bytes) -> None:
    """It tells the same of minutes as the recordings that were added."""
    database, good, bad = tmp_path / "year.db", tmp_path / "good.bin", tmp_path / "bad.bin"
    good.write_bytes(station)
    bad.write_bytes(station[:10000] + bytes(2000) + station[12000:])
    for name, path, start in (
        ("Alpha", good, "00:30:00"),
        ("Alpha", bad, "19:30:00"),
        ("Beta <b>", bad, "02:30:00"),
        ("Gamma", good, ""),
    ):
        words = ["--station", name, "--name", f"{name} {start}"]
        words += ["--start", f"2026-03-29T{start}Z"] if start else []
        assert monitor("db", *words, database, path).returncode == 0
    told = {datum["name"]: datum for datum in data_of(page(database))}
    assert sorted(told) == ["Alpha", "Beta <b>", "Gamma"]
    # Without a start the first bit is at 0.
    assert (told["Gamma"]["start"], told["Gamma"]["sessions"][0][0]) == (None, 0)
    alpha, alone = told["Alpha"], data_of(page(good))[0]
    assert [row[0] for row in alpha["sessions"]] == [0, 68400]
    # The day of the tile ends with the second one.
    first = int((86400 - alpha["end"]) // 900)
    assert [at for at, bad in enumerate(alpha["tile"]["line"]) if bad is not None] == [first, 95]
    counts = [alone["totals"]["sent"], alone["totals"]["valid"]]
    assert alpha["sessions"][0] == [0, *alone["sessions"][0][1:3], *counts]
    events = events_of(alone)
    assert events_of(alpha)[: len(events)] == events
    assert alpha["held"]["PS"] == "PAXOLIDU" and alpha["held"]["CT"].endswith("s from the recording's clock")
    clock = data_of(page("--start", "2026-03-29T00:30:00Z", good))[0]["clock"]
    assert [at for at, _ in clock] == [60, 120, 180]
    worse = data_of(page(bad))[0]
    assert [alpha["tile"]["line"][at] for at in (first, 95)] == [alone["bad_percent"], worse["bad_percent"]]
    outages = worse["outages"]
    assert alpha["outages"] == [
        [pytest.approx(row[0] + 68400), pytest.approx(row[1] + 68400), row[2]] for row in outages
    ]
    assert outages


@pytest.mark.parametrize(
    "stored, told",
    [
        ([(0, 0.1), (0.2, 150)], [[0, 150, 150]]),
        ([(0, 100), (100.125, 150)], [[0, 100, 100], [100.125, 150, 49.875]]),
        ([(50, 150), (60, 70)], [[50, 150, 100]]),
        ([(-50, 20), (990, 2000), (3000, 4000)], [[0, 20, 20], [990, 1000, 10]]),
        ([(-50, 0), (1000, 2000)], []),
    ],
)
def test_outages_that_meet_are_one(stored: List[Tuple[int, int]], told: List[Any]) -> None:
    """Those of two parts, or of two recordings of one time; of all of them what is between 0 and 1000 s."""
    line, session = TimeLine(), SimpleNamespace(quiet=None, at=float)
    station = StoredStation.__new__(StoredStation)
    station._times = [(1000.0, 2000.0), (-9.0, 0.0)]
    assert (
        not station.is_known(0.0, 1000.0) and station.is_known(-0.5, 1000.0) and station.is_known(0.0, 1000.5)
    )
    station._add_outages(line, session, stored, 0.0, 1000.0)  # type: ignore[arg-type]
    assert line.outages == told


def test_stretches_of_a_recording_are_one_session() -> None:
    """Those of two recordings stay apart, and those of one that follow within a tenth of a second are joined to the last."""
    line, station = TimeLine(), StoredStation.__new__(StoredStation)
    rows = [
        (1, [0.0, 9.0, 9.0, 90, 80]),
        (1, [20.0, 30.0, 10.0, 100, 90]),
        (1, [30.0625, 31.0, 0.9375, 9, 7]),
    ]
    for recording, row in [*rows, (2, [31.0, 32.0, 1.0, 10, 10])]:
        station._add_session(line, SimpleNamespace(recording=recording), row)  # type: ignore[arg-type]
        station._run = recording
    assert line.sessions == [rows[0][1], [20.0, 31.0, 10.9375, 109, 97], [31.0, 32.0, 1.0, 10, 10]]


def test_sessions_of_unknown_start_follow_on_one_another(tmp_path: Path) -> None:
    """Each of 3 s, from another position on."""
    path = tmp_path / "it.db"
    Store(str(path)).close()
    with sqlite3.connect(path) as database:
        database.execute("INSERT INTO recordings VALUES(1, 'it', 'X')")
        insert = "INSERT INTO sessions VALUES(?, 1, ?, NULL, 1000, 60000, ?, ?, 1, NULL)"
        database.executemany(insert, [(1, 0, 500, 3500), (2, 1, 2000, 5000)])
    (station,) = Stored(str(path)).stations()
    assert [(one.begin, one.end) for one in station.sessions] == [(0, 3), (3, 6)]


def test_the_tile_of_a_session_of_more_than_a_day(tmp_path: Path) -> None:
    """Of 25 hours the last day is shown, each of its quarters of an hour with a per cent more of bad blocks."""
    path = tmp_path / "it.db"
    Store(str(path)).close()
    rows = [(minute, 100 - max(0, minute - 60) // 15) for minute in range(25 * 60)]
    with sqlite3.connect(path) as database:
        database.execute("INSERT INTO recordings VALUES(1, 'it', 'X')")
        session = "INSERT INTO sessions VALUES(1, 1, 0, 600, 1000, 60000, 0, 90000000, 1, NULL)"
        database.execute(session)
        columns = "session, minute, sent, valid, corrected, lost, missing, more"
        insert = f"INSERT INTO minute_rows({columns}) VALUES(1, ?, 100, ?, 0, 0, 0, 0)"
        database.executemany(insert, rows)
    (station,) = Stored(str(path)).stations()
    assert (station.begin, station.end) == (600, 90600)
    assert station.tile()["line"] == [float(number) for number in range(96)]


@pytest.fixture(scope="module")
def year(tmp_path_factory: Any) -> Path:
    path: Path = tmp_path_factory.mktemp("years") / "year.db"
    make_year(path, ["Alpha"])
    return path


@needs_d3
def test_pages_of_a_year(year: Path) -> None:
    """Pages of at most 2 MB by days and hours, in little memory; sums are those of the rows, and each second of a month is told."""
    folder = year.parent / "pages"
    assert peak_memory("report", "--into", str(folder), str(year), data=b"") < 200_000
    names = [
        *(f"Alpha-2025-{month:02}.html" for month in range(1, 13)),
        "Alpha-2025.html",
        "availability.csv",
        "index.html",
    ]
    assert sorted(path.name for path in folder.iterdir()) == names
    assert all(path.stat().st_size < 2_000_000 for path in folder.iterdir())
    told, march = (data_of((folder / f"Alpha-2025{month}.html").read_text())[0] for month in ("", "-03"))
    # A row of the station's year, with a cell for each head.
    table = (folder / "index.html").read_text().split("Received, of all time")[1]
    assert (table.count("<th "), table.count("<td")) == (14, 14)
    for month, beside in ((1, ["02"]), (3, ["02", "04"]), (12, ["11"])):
        text = (folder / f"Alpha-2025-{month:02}.html").read_text()
        assert re.findall(r'href="Alpha-2025-(\d+).html"', text) == beside
    minutes = 365 * 1440
    sums = {name: minutes // 2 * (one + other) for name, one, other in zip(COUNTS, *MINUTES)}
    assert told["totals"] == sums and told["parts"][0]["step"] == 86400
    assert march["parts"][0]["step"] == 3600 and march["end"] == 31 * 86400
    assert march["totals"]["sent"] == 31 * 1440 // 2 * 5481
    # One minute in twenty counts for the mix. The second to the fourth day are one outage.
    mix = {name: 3 * count for name, count in json.loads(MIX).items()}
    assert march["mix"][6] == [21600, 25200, mix] and march["clock"][0] == [1800, 0.25]
    assert march["sessions"][0] == [0, 86400, 86400, 720 * 5481, 720 * 5441]
    assert [86400, 4 * 86400, 3 * 86400] in march["outages"]
    assert told["held"]["AF"] == "98.5 101.2" and told["held"]["CT"] == "+0.250 s from the recording's clock"
    assert len(told["lanes"][0][1]) == 1 and told["outage_count"] == 365
    # A new RT each three minutes is in no list, and its lane says so. Of a year's month two of seven daily items are left out: 2000 / 12 rows
    # are listed.
    assert (told["more"], march["more"]) == (365 * (480 + 2), 31 * 480) and told["held"][
        "RT"
    ] == "Alpha: title 479"
    lanes = {lane: [march["texts"][number] for *_, number in rows] for lane, rows in march["lanes"]}
    assert (lanes["PS"], lanes["RT"]) == (["Alpha"], ["several texts"])
    quiet = 3 * 24 * (3600 - int(OUTAGE * RATE) / RATE) + minutes / 60 * int(OUTAGE * RATE) / RATE
    assert sum(row[2] for row in told["outages"]) == pytest.approx(quiet, abs=1)
    with open(folder / "availability.csv", encoding="utf-8", newline="") as file:
        rows = list(csv.DictReader(file))
    assert [row["month"] for row in rows] == [f"2025-{month:02}" for month in range(1, 13)]
    april = 30 * 24 * int(OUTAGE * RATE) / RATE
    assert float(rows[3]["noise_s"]) == pytest.approx(april, abs=0.01) and rows[3]["outages"] == "720"
    assert rows[2]["longest_outage_s"] == "259200.0" and rows[3]["received_percent"] == "99.944"
    blocks = [str(30 * 720 * 5481), str(30 * 720 * 5441), "99.27"]
    assert [rows[3][name] for name in ("sent", "valid", "valid_percent")] == blocks
    for row, days in zip(rows, (31, 28, 31, 30, 31, 30, 31, 31, 30, 31, 30, 31)):
        seconds = sum(float(row[f"{name}_s"]) for name in ("received", "noise", "down", "unknown"))
        assert seconds == pytest.approx(86400 * days, abs=0.01)


@needs_d3
def test_years_of_some_days(tmp_path: Path, station: bytes) -> None:
    """A month without any session has no page and no link, a start that is not known is named, and names are escaped."""
    (tmp_path / "it.bin").write_bytes(station)
    for name, start in (("1", "2024-12-31T23:59:00Z"), ("2", "2025-03-31T23:59:00Z"), ("3", None)):
        words = ["--station", "A/<b>", "--name", name, *(("--start", start) if start else ())]
        assert monitor("db", *words, tmp_path / "it.db", tmp_path / "it.bin").returncode == 0
    done = monitor("report", "--into", tmp_path / "pages", tmp_path / "it.db")
    assert done.returncode == 0
    assert done.stderr == b"rds-monitor report: A/<b>: 1 sessions whose start is not known are left out\n"
    pages = {path.name: path for path in (tmp_path / "pages").iterdir()}
    told = [row.split(",") for row in pages.pop("availability.csv").read_text().splitlines()[1:]]
    links = {
        name.removeprefix("A%2F%3Cb%3E-"): re.findall(
            r'href="A%252F%253Cb%253E-([-\d]+).html"', path.read_text()
        )
        for name, path in pages.items()
    }
    assert links == {
        "2024-12.html": ["2024"],
        "2024.html": ["2024-12"],
        "2025-01.html": ["2025"],
        "2025-03.html": ["2025", "2025-04"],
        "2025-04.html": ["2025", "2025-03"],
        "2025.html": ["2025-01", "2025-03", "2025-04"],
        "index.html": ["2025", "2024", "2024-12", "2025", "2025-01", "2025-03", "2025-04"],
    }
    assert [row[1] for row in told] == ["2024-12", "2025-01", "2025-02", "2025-03", "2025-04"]
    # of a month without any session all but the unknown time is 0
    assert [float(text or -1) for text in told[2][2:]] == [0, 0, 0, 28 * 86400, 0, 0, 0, 0, 0, -1]
    rest = 8 * len(station) / RATE - 60
    assert [float(row[2]) for row in told] == pytest.approx([60, rest, 0, 60, rest], abs=0.01)


FAULTS = [
    ("--into pages it", b"x", 2, "--into is for one database"),
    ("--into pages it it", MAGIC, 2, "--into is for one database"),
    ("--start 2026-03-29T00:30:00Z it it", b"x", 1, "--start is of one recording"),
    ("it", MAGIC, 1, "'it' cannot be read: file is not a database"),
]


@pytest.mark.parametrize("words, data, status, fault", FAULTS, ids=range(len(FAULTS)))
def test_faults(words: str, data: bytes, status: int, fault: str, tmp_path: Path) -> None:
    (tmp_path / "it").write_bytes(data)
    done = monitor("report", *words.split(), cwd=tmp_path)
    assert done.returncode == status and fault in done.stderr.decode() and not done.stdout
    assert [path.name for path in tmp_path.iterdir()] == ["it"]


def test_a_database_of_something_else(tmp_path: Path) -> None:
    with sqlite3.connect(tmp_path / "other.db") as database:
        database.execute("CREATE TABLE it(x)")
    done = monitor("report", tmp_path / "other.db")
    assert done.returncode == 1 and b"is no database of rds-monitor db" in done.stderr


def test_without_d3(monkeypatch: pytest.MonkeyPatch) -> None:
    monkeypatch.setenv("RDS_D3", "/nowhere/d3.js")
    done = monitor("report", data=station())
    assert done.returncode == 1 and b"install libjs-d3" in done.stderr and not done.stdout
