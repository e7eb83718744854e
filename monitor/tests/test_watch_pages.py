"""The pages and the metrics: what is on them, and what a hostile station cannot do there."""

from __future__ import annotations

import base64
import hashlib
import re
import sqlite3
import time
from html.parser import HTMLParser
from pathlib import Path
from typing import Any, Dict, List, Tuple

import pytest
from rds_monitor.db.parts import EventRow, MinuteRow, Told
from rds_monitor.measures.errors import Interval
from rds_monitor.page import stored
from rds_monitor.watch.alarms import NAMES
from rds_monitor.watch.metrics import METRICS, metrics_text
from rds_monitor.db.standing import Availability, standing_of
from rds_monitor.watch.pages import Bar, bars_of, overview, picture, station_page, worst_first, write_pages
from rds_monitor.watch.records import (
    AlarmChanged,
    PartGrew,
    PartKey,
    PartOpened,
    PartTold,
    Records,
    StateSeen,
)
from rds_monitor.watch.times import Timing

UTC = 1795748400.0
DAY = Availability(80000.0, 400.0, 2999.98765, 1800.0)
HOSTILE = "<script>alert(1)</script>\"'& \u202e\x1b[2J" + "a" + "\u0301" * 64


def state(**changes: Any) -> Dict[str, Any]:
    known: Dict[str, Any] = {
        "utc": UTC,
        "frequency": 98.1,
        "expected_pi": ["D318"],
        "running": True,
        "starts": 3,
        "reason": "",
        "session_utc": UTC - 1000,
        "held": {"pi": "D318", "ps": "ALPHA", "rt": "Now: nothing", "pty": "10 Pop music"},
        "last_group_utc": UTC - 0.5,
        "minute": {"sent": 2740, "valid": 2466, "corrected": 100},
        "clock_s": -0.25,
        "signal": {"snr_db": 21.5, "level_dbfs": -31.0},
        "blocks": {"valid": 10, "corrected": 2, "lost": 3, "missing": 4},
        "alarms": {},
    }
    return {**known, **changes}


class Tags(HTMLParser):
    """The elements of a page with their attributes, and the texts that are shown."""

    def __init__(self, page: str):
        super().__init__()
        self.tags: List[Tuple[str, Dict[str, Any]]] = []
        self.text = ""
        self.feed(page)

    def handle_starttag(self, tag: str, attrs: List[Tuple[str, Any]]) -> None:
        self.tags.append((tag, dict(attrs)))

    def handle_data(self, data: str) -> None:
        self.text += data


def test_a_hostile_station() -> None:
    """Its texts are shown as texts, escaped where they would act."""
    held = {"pi": "D318", "ps": HOSTILE, "rt": HOSTILE, "pty": HOSTILE}
    one = state(held=held, alarms={"ps": HOSTILE}, reason=HOSTILE, session_utc=None)
    bars, events = [Bar(10, 9, 1)], [(UTC, "ps", HOSTILE), (UTC, "rt", None)]
    for page in (
        overview({"Al<b>pha": one}, {"Al<b>pha": bars}, UTC, 60),
        station_page("Al<b>pha", one, bars, [("ps", UTC, None, HOSTILE)], events, UTC, 60),
    ):
        found = Tags(page)
        names = {tag for tag, _ in found.tags}
        assert "script" not in names and "b" not in names
        assert not [name for _, attributes in found.tags for name in attributes if name.startswith("on")]
        assert all(text in found.text for text in ("<script>alert(1)</script>", "\\x1b[2J", "\\u202e"))
        assert "\x1b" not in page and "\u202e" not in page and "\u0301\u0301\u0301" not in page


def test_the_policy_of_a_page() -> None:
    """Nothing is loaded, and only the style of the page counts."""
    page = overview({"Alpha": state()}, {"Alpha": []}, UTC, 60)
    style = page.split("<style>")[1].split("</style>")[0]
    policy = re.search('Content-Security-Policy" content="([^"]+)"', page)
    assert policy and "default-src 'none'" in policy[1]
    assert f"'sha256-{base64.b64encode(hashlib.sha256(style.encode()).digest()).decode()}'" in policy[1]
    # Each picture is as wide as its tile.
    assert "svg{width:100%;" in style
    assert "http://" not in page and "https://" not in page and ' style="' not in page


def test_a_tile() -> None:
    text = Tags(overview({"Alpha": state(alarms={"ta": "TA is on"})}, {"Alpha": []}, UTC, 60)).text
    shown = "1 stations, 1 with an alarm/98.1 MHz/ALPHA/Now: nothing/PI D318/ta: TA is on/10.0 % of the last minute bad"
    assert all(one in text for one in [*shown.split("/"), "group 0 s ago"])
    # Bits may be ahead of the clock of the page.
    text = Tags(overview({"A": state(last_group_utc=UTC + 3)}, {"A": []}, UTC, 60)).text
    assert "last whole group 0 s ago" in text
    text = Tags(overview({"A": state(minute=None, last_group_utc=None)}, {"A": []}, UTC, 60)).text
    assert "no minute yet; no whole group yet; RDS SNR 21.5 dB, level -31.0 dBFS" in text
    for reason, told in (("", "the receiver starts"), ("unplugged", "unplugged")):
        page = station_page("A", state(session_utc=None, reason=reason), [], [], [], UTC, 60)
        assert f"no session: {told}; 3 starts" in Tags(page).text
        assert Tags(page).text.endswith("Alarmsnone\nChangesnone\n\n")
    text = Tags(station_page("A", state(), [], [], [], UTC, 60, DAY)).text
    assert "session since 2026-11-27 02:43:20 UTC; 3 starts" in text
    assert "The last 24 hours24 h ago" in text
    assert "received 22.22 h, noise 0.11 h, down 0.83 h, unknown 0.50 h" in text


def test_a_picture_is_in_proportion() -> None:
    """Of 40 pixels those of bad blocks are at the top, then those of corrected ones."""
    pattern = r'class="(\w+)" x="0" y="([\d.]+)" width="1" height="([\d.]+)"'
    drawn = re.findall(pattern, picture([Bar(100, 70, 20)], 40, "Alpha"))
    assert drawn == [("fine", "12.0", "28.0"), ("fixed", "4.0", "8.0"), ("bad", "0.0", "4.0")]
    # What there is none of is not drawn.
    assert re.findall(pattern, picture([Bar(100, 100, 0)], 40, "Alpha")) == [("fine", "0.0", "40.0")]


def test_stations_with_an_alarm_are_counted_once() -> None:
    states = {"a": state(alarms={"ta": "", "pi": ""}), "b": state()}
    assert "2 stations, 1 with an alarm" in Tags(overview(states, {"a": [], "b": []}, UTC, 60)).text
    critical = [alarm for alarm in NAMES if standing_of(state(alarms={alarm: ""})).severity == "critical"]
    assert critical == ["silent", "no_rds", "pi"]
    assert standing_of(state(alarms={"ta": "TA is on", "pi": "PI D319"})).text == "ta: TA is on; pi: PI D319"
    idle = standing_of(state(session_utc=None, reason="no byte"))
    assert (idle.state, idle.text) == ("no session", "no session: no byte")


def test_the_worst_first() -> None:
    """By alarms, by bad blocks, of which none are known at first, and by name."""
    bad, good = ({"sent": 10, "valid": valid, "corrected": 0} for valid in (1, 10))
    states = {"a": state(), "b": state(minute=bad), "c": state(alarms={"ta": ""})}
    states.update(d=state(alarms={"no_rds": ""}), f=state(minute=good), e=state(minute=None))
    states["g"] = state(minute={"sent": 1000, "valid": 995, "corrected": 0})
    assert worst_first(states) == ["d", "c", "b", "a", "g", "e", "f"]


def test_an_outage_is_seen_in_a_day() -> None:
    """Two blocks of a day's picture are a line of one pixel at least; a gap is none."""
    drawn = picture([Bar(0, 0, 0), Bar(11000, 10998, 0)], 40, "Alpha")
    assert 'class="bad" x="1" y="0.0" width="1" height="1.0"' in drawn
    assert 'x="0"' not in drawn.replace('x1="0"', "")


def filled(folder: Path) -> Records:
    records = Records(str(folder / "watch.db"))
    key, timing = PartKey("Alpha 1", 0), Timing(UTC - 3600)
    minutes = []
    for n in range(60):
        bad = 100 * (n == 30)
        blocks = Interval(n * 71250, (n + 1) * 71250, 2740, 2740 - bad, 7, 0, bad)
        minutes.append(MinuteRow(n, blocks, {"0A": 5}, {"ps": "ALPHA"}, None, 0))
    told = Told(minutes, [EventRow(104, 0, "ps", "ALPHA"), EventRow(71250, 0, "ps", None)], [], [], [])
    opened = PartOpened(key, "Alpha", timing, 0, "listings/Alpha/x.csv")
    records.write([opened, PartTold(key, told), AlarmChanged("Alpha", "ta", True, UTC - 60, "TA is on")])
    return records


def test_pages_of_a_database(tmp_path: Path) -> None:
    records = filled(tmp_path)
    pi = AlarmChanged("Alpha", "pi", True, UTC - 90, "PI D319")
    records.write([pi, pi._replace(begins=False, utc=UTC - 75, text="")])
    bars = bars_of(records.database, "Alpha", UTC)
    assert len(bars) == 360
    assert sum(bar.sent for bar in bars) == 60 * 2740
    assert sum(bar.sent - bar.valid for bar in bars) == 100
    # The last one has just begun. The minute of the fault is 30 minutes old, in the eighth before.
    assert [at for at, bar in enumerate(bars) if bar.valid < bar.sent] == [351]
    assert not bars[359].sent
    assert bars[358].sent == 4 * 2740
    assert sum(bar.corrected for bar in bars) == 60 * 7
    write_pages(
        str(tmp_path / "pages"), {"Alpha": state(), "Be ta": state()}, {}, {}, UTC, records.database, 60
    )
    names = sorted(path.name for path in (tmp_path / "pages").iterdir())
    assert names == ["Alpha.html", "Be ta.html", "index.html"]
    page = (tmp_path / "pages" / "Alpha.html").read_text()
    # Newest first: an alarm that lasts has no end, and an item that is no longer sent no value.
    alarms, changes = (
        re.findall(r"<td class=\"text\"><bdi>(.*?)</bdi>", one)
        for one in page.split("<h2>Alarms</h2>")[1].split("<h2>")
    )
    lasting = ["ta", "2026-11-27 02:59:00", "", "TA is on"]
    assert alarms == [*lasting, "pi", "2026-11-27 02:58:30", "2026-11-27 02:58:45", "PI D319"]
    assert changes == ["2026-11-27 02:01:00", "PS", "none", "2026-11-27 02:00:00", "PS", "ALPHA"]
    assert "3 starts of the receiver" in page and "24 h ago</span><span>12 h ago</span><span>now" in page
    index = (tmp_path / "pages" / "index.html").read_text()
    assert 'href="Be%20ta.html"' in index
    for text in (page, index):
        assert '<meta http-equiv="refresh" content="60">' in text and "2026-11-27 03:00:00 UTC</time>" in text
    begin = time.process_time()
    write_pages(
        str(tmp_path / "pages"), {f"S{n}": state() for n in range(30)}, {}, {}, UTC, records.database, 60
    )
    assert time.process_time() - begin < 10
    records.close()


def test_a_page_of_a_station_that_left_is_removed_once(tmp_path: Path) -> None:
    records = filled(tmp_path)
    records.write([StateSeen("Gone", UTC, state())])
    (tmp_path / "Gone.html").touch()
    for _ in range(2):
        write_pages(str(tmp_path), {}, {}, {}, UTC, records.database, 60)
        assert not (tmp_path / "Gone.html").exists()
    records.close()


def test_how_much_of_the_past_a_page_has(tmp_path: Path) -> None:
    """The last 30 alarms, and of the last four sessions the last 40 changes."""
    records = Records(str(tmp_path / "watch.db"))
    for n in range(31):
        alarm = AlarmChanged("Alpha", "ta", True, UTC - 3600 + n, f"alarm {n}")
        records.write([alarm, alarm._replace(begins=False, utc=alarm.utc + 0.5)])
    found = []
    for n, count in enumerate((9, 9, 9, 9, 9, 20)):
        key, events = PartKey(f"Alpha {n}", 0), [EventRow(104 * k, 0, "ps", f"{n} {k}") for k in range(count)]
        records.write([PartOpened(key, "Alpha", Timing(UTC - 1000 + 60 * n), 0, f"{n}.csv")])
        records.write([PartTold(key, Told([], events, [], [], [])), PartGrew(key, 71250, 0, True)])
        write_pages(str(tmp_path), {"Alpha": state()}, {}, {}, UTC, records.database, 60)
        tables = (tmp_path / "Alpha.html").read_text().split("<h2>")[-2:]
        found.append([re.findall(r"<bdi>(alarm \d+|\d \d+)</bdi>", table) for table in tables])
    assert found[-1][0] == [f"alarm {n}" for n in range(30, 0, -1)]
    assert [len(changes) for _, changes in found] == [9, 18, 27, 36, 36, 40]
    assert (found[4][1][0], found[4][1][-1]) == ("4 8", "1 0") and found[5][1][0] == "5 19"
    records.close()


def test_a_busy_item_goes_on_in_the_next_line(tmp_path: Path, monkeypatch: pytest.MonkeyPatch) -> None:
    """Of an item that changes too often each interval has one text; then it is the one that the last minute tells. RT is not busy."""
    monkeypatch.setattr(stored, "MOST_LISTED", 2)
    records = Records(str(tmp_path / "watch.db"))
    for part, texts in enumerate([("ONE", "TWO"), (None, None)]):
        key, first = PartKey("Alpha 1", part), part * 60 * 71250
        minutes = [
            MinuteRow(
                n, Interval(n * 71250, (n + 1) * 71250, 2740, 2740, 0, 0, 0), {"0A": 5}, {"ps": text}, None, 0
            )
            for n, text in enumerate(30 * texts, part * 60)
        ]
        changes = [EventRow(71250 * n, 0, "ps", text) for n, text in enumerate(("ONE", None, "ONE", None))]
        changes += [EventRow(71250 * 30, 0, "rt", "NOW")]
        told = Told(minutes, [EventRow(71250 * 90, 0, "rt", None)] if part else changes, [], [], [])
        opened = PartOpened(key, "Alpha", Timing(UTC - 7200), first, f"{part}.csv")
        records.write([opened, PartTold(key, told), PartGrew(key, first + 60 * 71250, 0, True)])
    records.close()
    (alpha,) = stored.Stored(str(tmp_path / "watch.db")).stations()
    first, second = (alpha.line(UTC - 7200 + at, UTC - 3600 + at, 3600).lanes for at in (0, 3600))
    assert first == {
        "PS": [(UTC - 7200, UTC - 3600, "several texts")],
        "RT": [(UTC - 5400, UTC - 3600, "NOW")],
    }
    assert second == {"PS": [(UTC - 3600, UTC, "TWO")], "RT": [(UTC - 3600, UTC - 1800, "NOW")]}


def test_each_record_counts_once(tmp_path: Path) -> None:
    """What is told again, as after a crash, changes nothing."""
    filled(tmp_path).close()
    before = dump(tmp_path)
    filled(tmp_path).close()
    assert dump(tmp_path) == before


def dump(folder: Path) -> List[str]:
    data = sqlite3.connect(folder / "watch.db")
    found = list(data.iterdump())
    data.close()
    return found


def test_metrics() -> None:
    gamma, beta = (
        state(clock_s=None, minute=None, signal={}, **more) for more in ({"expected_pi": []}, {"held": {}})
    )
    states = {"Gamma": gamma, 'Al"pha\\\n': state(alarms={"ta": "x"}), "Beta": beta}
    text = metrics_text(states, dict.fromkeys(states, DAY), {}, UTC)
    lines = text.splitlines()
    sample = r'rds_\w+(\{(\w+="([^"\\]|\\["\\n])*",?)+\})? -?[0-9.e+]+'
    assert all(re.fullmatch(rf"# (HELP|TYPE) rds_\w+ .+|{sample}", line) for line in lines)
    assert 'rds_alarm{station="Al\\"pha\\\\\\n",alarm="ta"} 1' in lines
    assert 'rds_alarm{station="Beta",alarm="ta"} 0' in lines
    assert 'rds_bad_blocks_ratio{station="Al\\"pha\\\\\\n"} 0.1' in lines
    assert f"rds_watch_timestamp_seconds {UTC:.15g}" in lines
    assert [text.count(f"\nrds_{name}{{") for name in ("clock_offset_seconds", "pi_as_expected")] == [1, 1]
    assert re.findall(r'receiver_up{station="(\w+).*} 1', text) == ["Al", "Beta", "Gamma"]
    assert kinds_in(text) == KINDS and re.findall(".*disk.*", text) == ['rds_alarm{alarm="disk"} 0']


COUNTERS = "rds_receiver_starts_total", "rds_blocks_total"
KINDS = [(metric.name, "counter" if metric.name in COUNTERS else "gauge") for metric in METRICS]


def kinds_in(text: str) -> List[Tuple[str, str]]:
    return re.findall(r"^# TYPE (\w+) (\w+)$", text, re.M)


def test_metrics_of_a_station() -> None:
    """In its last minute nothing was sent. Rows wait to be written."""
    known = state(running=False, held={"pi": "D319"}, minute={"sent": 0, "valid": 0})
    other = metrics_text({"B": known}, {"B": DAY}, {"disk": "rows wait"}, UTC)
    values = dict(re.findall(r'^rds_(\w+)\{station="B"(?:,outcome="valid")?\} (.*)$', other, re.M))
    assert values == {
        "receiver_up": "0",
        "receiver_starts_total": "3",
        "blocks_total": "10",
        "last_group_timestamp_seconds": f"{UTC - 0.5:.15g}",
        "clock_offset_seconds": "-0.25",
        "pi_as_expected": "0",
        "snr_db": "21.5",
        "level_dbfs": "-31",
    }
    for line in (
        'day_seconds{station="B",state="down"} 2999.988',
        'station_state{station="B",state="good"} 1',
    ):
        assert f"rds_{line}" in other.splitlines()
    assert re.findall(".*disk.*", other) == ['rds_alarm{alarm="disk"} 1']
    assert re.findall(r'^rds_alarm\{station="B",alarm="(\w+)"\} 0$', other, re.M) == [*NAMES[:-1]]
    assert kinds_in(other) == [one for one in KINDS if one[0] != "rds_bad_blocks_ratio"]
