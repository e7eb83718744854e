"""Every command, view, page and metric over the recordings of rich.py: whole texts, which are in rich/.

A file there has commands after "$ ", each followed by its output; `@one` is the recording of that name with its start and rate.
`RICH=write python3 -m pytest monitor/tests/test_rich.py` writes what the commands say now: read each line that changes against
what rich.py sends. The tests below compare the numbers in them with counts of what was sent.
"""

from __future__ import annotations

import base64
import csv
import json
import os
import re
import shlex
import shutil
import sqlite3
from collections import Counter
from pathlib import Path
from typing import Any, Dict, Iterator, List, Tuple
from unittest import mock

import numpy
import pytest

import modulator
import rich
from conftest import encode, rds
from made import output, run
from network import START, Network, Plan, SharedAir, no_space
from rds_monitor.page.stored import Stored
from rds_monitor.rows.clock import utc_text
from rds_monitor.rows.decoders import decoder_of
from rds_monitor.watch import writer
from rds_monitor.watch.alarms import NAMES

# When the watch was looked at for the last time.
END = START + 827
TEXTS = Path(__file__).parent / "rich"
ONE, TWO = rich.one(), rich.two()
# The groups of the signal, and of what `why` looks at.
HEARD = ONE.groups[:32]
CLOCKS = {
    f"@{of.name}": f"--start {utc_text(of.start)} --rate {rich.RATE} {of.name}.bin" for of in (ONE, TWO)
}


# Each alarm comes within the fourteen minutes of `one`.
TABLE = """
[defaults]
patience = 5

[defaults.alarms]
ps_stuck = 200
rt_stuck = 150
ta = 20
ct = 1
ct_offset = 0.5
ct_absent = 70
silent = 5
no_rds = 4
fast = 20
slow = 20
flapping = 2
errors = 1
errors_percent = 5
pi = 5
ps = 10
rt = 20
af = 10
disk = 2

[[station]]
name = "Alpha"
command = ["a"]
frequency = 98.1
pi = "D318"
ps = "RICH*"
rt = "Caf*"
af = [87.6, 87.7, 87.8]

[[receiver]]
name = "north"
command = ["n"]
raw = "u8"
rate = 2400000
centre = 98.0
patience = 5
soft = false

[[station]]
name = "Beta <b>"
receiver = "north"
frequency = 97.3
pi = ["D319", "D31A"]
"""
# Runs of Alpha's receiver: silent for a while; until the watch is ended; too fast; too slow, and then silent; and to the end.
PLANS = [Plan(drops=(300, 12)), Plan(dies=60), Plan(pace=1.03, dies=90), Plan(pace=0.97, hangs=120), Plan()]


class OnAir:
    """The bytes of a recording, some times over, by the seconds since its begin."""

    def __init__(self, of: rich.Recording, times: int = 1):
        self._data = of.bits() * times

    def at(self, seconds: float) -> int:
        return min(len(self._data), int(seconds * rich.RATE / 8))

    def bytes(self, first: int, after: int) -> bytes:
        return self._data[first:after]


def recordings() -> None:
    """The files of `batch`, in a folder of their own."""
    Path("recordings").mkdir()
    for name in ("one.bin", "two.bin", "one.hex", "odd.hex"):
        Path("recordings", name).symlink_to(Path(name).resolve())
    Path("recordings/zeros.bin").write_bytes(bytes(3000))


def for_why() -> None:
    Path("groups.text").write_text(rich.group_text(HEARD))
    Path("rbds.bin").write_bytes(rich.with_blocks_e(HEARD))


# What a text needs beside the two recordings.
MAKERS = {
    "batch.txt": recordings,
    "demod.txt": lambda: Path("mpx.wav").write_bytes(rich.mpx_file(HEARD)),
    "stations.txt": lambda: Path("capture.wav").write_bytes(rich.capture_file()),
    "why.txt": for_why,
}


@pytest.fixture(scope="module")
def folder(tmp_path_factory: pytest.TempPathFactory) -> Iterator[Path]:
    """The recordings, a listing of both as of a stream that was restarted, and a database of both."""
    path, before = tmp_path_factory.mktemp("rich"), os.getcwd()
    os.chdir(path)
    for of in (ONE, TWO):
        Path(f"{of.name}.bin").write_bytes(of.bits())
        Path(f"{of.name}.csv").write_bytes(rds("list", data=of.bits()))
        *clock, recording = CLOCKS[f"@{of.name}"].split()
        output("db", "--groups", "--station", "Alpha", *clock, "rich.db", recording)
    Path("both.csv").write_bytes(Path("one.csv").read_bytes() + Path("two.csv").read_bytes())
    Path("one.hex").write_text(ONE.bits()[:20000].hex())
    Path("one.text").write_text("".join(f"{byte:08b}" for byte in ONE.bits()[:20000]))
    Path("watch.toml").write_text(TABLE)
    Path("odd.hex").write_text("0" * 333)
    yield path
    os.chdir(before)


@pytest.fixture(scope="module")
def watched(folder: Path) -> Iterator[None]:
    """A watch over both, at twice the speed of time, which was away for ten seconds, and whose disk was full for five."""
    path = folder / "watch"
    path.mkdir()
    airs = {"a": OnAir(ONE), "n": SharedAir({97_300_000: OnAir(TWO, 7)}, 0.02)}
    plans = {"a": [*PLANS], "n": [Plan(hangs=200)]}
    net = Network(path, TABLE, airs, plans, decoder_of()[0], speed=2.0)
    with pytest.MonkeyPatch.context() as patch:
        patch.setattr(os, "fdatasync", lambda file: None)
        net.run(350)
        net.restart(10)
        net.run(100)
        with patch.context() as full:
            full.setattr(writer.HourWriter, "append", no_space)
            net.run(5)
        net.reload(TABLE)
        net.run(END - net.times.utc)
    (path / "said.txt").write_text("".join(f"{line}\n" for line in net.said))
    assert 'http-equiv="refresh" content="30"' in (path / "pages" / "index.html").read_text()
    yield
    net.end()


# ---- commands


def stations_of(page: str) -> List[Dict[str, Any]]:
    """What a page's script shows."""
    found = re.search(r'<script type="application/json" id="data">(.*?)</script>', page, re.S)
    return list(json.loads(found[1])) if found else []


def data_of(page: str) -> List[str]:
    """The same, a line per list."""
    lines = []
    for station in stations_of(page):
        for part in station["parts"]:
            part.update(
                {name: len(text) for name, text in part.items() if isinstance(text, str) and name != "bytes"}
            )
        lines += [f"{name}: {json.dumps(value, ensure_ascii=False)}" for name, value in station.items()]
    return lines


def text_of(page: str) -> List[str]:
    """The words of a page, a line per row of a table or paragraph."""
    body = re.sub(r"<(script|style)\b.*?</\1>|<!--.*?-->", "", page, flags=re.S)
    lines = re.split(r"</?(?:p|tr|h\d|li|table|section|summary|details|div)\b[^>]*>", body)
    return [line for line in (" ".join(re.sub(r"<[^>]*>", " ", one).split()) for one in lines) if line]


def shown(words: List[str]) -> List[str]:
    """What a command says."""
    if words[0] == "sql":
        return ["|".join(str(cell) for cell in row) for row in sqlite3.connect(words[1]).execute(words[2])]
    if words[0] == "cat":
        return Path(words[1]).read_text().splitlines()
    if words[0] == "totals":
        return [line for line in Path(words[1]).read_text().splitlines() if line.startswith("total,")]
    if words[0] == "text":
        return text_of(Path(words[1]).read_text())
    data = b""
    if words[-2:-1] == ["<"]:
        *words, _, file = words
        data = Path(file).read_bytes()
    with mock.patch("rds_monitor.watch.asked.time.time", lambda: END):
        done = run(*words[1:], data=data)
    lines = done.out.splitlines()
    if done.out.startswith("<!"):
        lines = [*text_of(done.out), *data_of(done.out)]
    return [
        *lines,
        *(f"! {line}" for line in done.err.splitlines()),
        *[f"status {done.status}"] * (done.status > 0),
    ]


def ran(command: str) -> List[str]:
    for name, words in CLOCKS.items():
        command = command.replace(name, words)
    return shown(shlex.split(command))


# The watch takes 17 processor seconds, so one worker runs all tests of it.
OF_WATCH = pytest.mark.xdist_group("watched")


@pytest.mark.parametrize(
    "name",
    [
        pytest.param(path.name, marks=OF_WATCH if path.name.startswith("watch") else ())
        for path in sorted(TEXTS.iterdir())
    ],
)
def test_all_that_is_said(name: str, folder: Path, request: pytest.FixtureRequest) -> None:
    if name.startswith("watch"):
        request.getfixturevalue("watched")
    if name == "batch.txt" and not shutil.which("parallel"):
        pytest.skip("GNU parallel is not installed")
    MAKERS.get(name, list)()
    golden = (TEXTS / name).read_text().splitlines()
    found = [line for told in golden if told.startswith("$ ") for line in (told, *ran(told[2:]))]
    if os.environ.get("RICH") == "write":
        (TEXTS / name).write_text("".join(f"{line}\n" for line in found))
    assert found == golden


# ---- beside what was sent


def table(name: str, number: int = 0) -> List[Dict[str, str]]:
    """The CSV of the command of this number in a golden text."""
    return list(csv.DictReader((TEXTS / f"{name}.txt").read_text().split("$ ")[number + 1].splitlines()[1:]))


def whole(rows: List[Dict[str, str]], *names: str) -> List[Tuple[int, ...]]:
    return [tuple(int(row[name]) for name in names) for row in rows]


COUNTS = ("valid", "corrected", "lost")


@pytest.mark.parametrize("number, of, seconds", [(0, ONE, 60), (2, TWO, 60)])
def test_blocks_by_minute(number: int, of: rich.Recording, seconds: float) -> None:
    rows = table("errors", number)
    assert whole(rows, *COUNTS) == [tuple(one.get(name, 0) for name in COUNTS) for one in of.counts(seconds)]
    sent = 0
    for row, end in zip(rows, [seconds * (k + 1) * rich.RATE for k in range(len(rows) - 1)] + [of.length]):
        sent += int(row["sent"])
        assert abs(sent - end / rich.BLOCK) <= 1
        assert int(row["sent"]) == sum(int(row[name]) for name in (*COUNTS, "no_sync"))


def test_a_watch_judges_as_its_listing_does(tmp_path: Path) -> None:
    """At the end of its first minute, which is the end of a block and no hour's."""
    alpha = OnAir(ONE)
    block = next(begin for begin in ONE.begins() if begin > 100 * rich.RATE)
    first = next(
        byte for byte in range(alpha.at(40), len(ONE.bits())) if (8 * byte + 71250 - block) % 26 == 0
    )
    net = Network(tmp_path, TABLE, {"a": alpha, "n": SharedAir({97_300_000: alpha})}, None, decoder_of()[0])
    net.times.pass_by((8 * first + 1) / rich.RATE - 1)
    net.run(75)
    data = ONE.bits()[first : first + 8907]
    (tmp_path / "it.csv").write_bytes(rds("list", "--bits", 71250, data=data))
    with mock.patch("rds_monitor.watch.asked.time.time", lambda: net.times.utc):
        there = run("check", "--station", "Alpha", tmp_path / "watch.db")
    alone = run("check", "--length", 71250, tmp_path / "it.csv")
    found = [re.findall(r"(valid|corrected)=([\d.]+)%", done.out) for done in (there, alone)]
    assert found[0] == found[1] and found[0][0] != ("valid", "100.00")
    net.end()


def test_seconds_of_the_page(folder: Path) -> None:
    """The page's script has them as numbers of a byte each."""
    (part,) = stations_of(output("report", *CLOCKS["@one"].split()))[0]["parts"]
    read = {name: list(base64.b64decode(part[name])) for name in ("sent", "corrected", "lost", "missing")}
    valid = [sent - sum(others) for sent, *others in zip(*read.values())]
    wanted = ONE.counts(1)
    assert valid == [one.get("valid", 0) for one in wanted]
    assert read["corrected"] == [one.get("corrected", 0) for one in wanted]
    assert read["lost"] == [one.get("lost", 0) for one in wanted]


def by_minutes(counted: List[Dict[str, int]], minutes: int) -> List[Dict[str, int]]:
    """The sums of counts by second, or by minute."""
    parts = (counted[k : k + minutes] for k in range(0, len(counted), minutes))
    return [dict(sum((Counter(one) for one in part), Counter[str]())) for part in parts]


def counts_of(part: Dict[str, str]) -> List[Dict[str, int]]:
    """Of a page, by interval."""
    kind = f"<u{part['bytes']}"
    columns = {name: numpy.frombuffer(base64.b64decode(part[name]), kind).tolist() for name in PARTS}
    return [dict(zip(columns, row)) for row in zip(*columns.values())]


PARTS = ("sent", "corrected", "lost", "missing")


@pytest.mark.parametrize("of", [ONE, TWO], ids=["one", "two"])
def test_the_page_of_a_database_is_that_of_its_recording(of: rich.Recording, folder: Path) -> None:
    """From an even minute on: a database has two minutes in place of each second, the time that was watched, and the clock's offset."""
    clock = ["--start", utc_text(of.start // 120 * 120), "--rate", str(rich.RATE)]
    path = f"{of.name}-alone.db"
    output("db", "--station", f"{of.name}.bin", *clock, path, f"{of.name}.bin")
    recorded, stored = (
        stations_of(output("report", *words))[0] for words in ([*clock, f"{of.name}.bin"], [path])
    )
    ((seconds,), (minutes,)) = (told.pop("parts") for told in (recorded, stored))
    assert by_minutes(counts_of(seconds), 120) == by_minutes(counts_of(minutes), 1)
    mixes = [told.pop("mix") for told in (recorded, stored)]
    assert by_minutes([mix for _, _, mix in mixes[0]], 2) == [mix for _, _, mix in mixes[1]]
    assert [row[:2] for row in mixes[1]] == [[120 * k, 120 * k + 120] for k in range(len(mixes[1]))]
    offsets: Dict[int, List[float]] = {}
    for at, offset in recorded.pop("clock"):
        offsets.setdefault(int(at - 1) // 120, []).append(offset)
    wanted = [[120 * k + 60, pytest.approx(numpy.mean(told), abs=0.001)] for k, told in offsets.items()]
    assert stored.pop("clock") == wanted
    assert recorded["held"].pop("CT")[:4] == "2026" and "from the recording" in stored["held"].pop("CT")
    available = stored.pop("available")
    assert recorded.pop("available") is None and round(sum(available.values()), 3) == recorded["end"]
    assert available["noise"] == pytest.approx(sum(length for *_, length in recorded["outages"]), abs=0.002)
    assert recorded.pop("tile")["line"] == stored.pop("tile")["line"]
    assert recorded == stored and len(stored) >= 12
    with sqlite3.connect(path) as database:
        database.execute("UPDATE sessions SET quiet_place = end_place - 2 * rate")
    end, last = recorded["end"], recorded["outages"][-1]
    lasting = stations_of(output("report", path))[0]["outages"][-1]
    assert lasting == pytest.approx([end - 2, end, 2] if last[1] < end - 2 else last, abs=0.001)


def test_intervals_of_a_database(folder: Path) -> None:
    """So long that its 17 minutes fit: two minutes, an hour, or a day."""
    assert [Stored("rich.db").step(most) for most in (9, 8, 1, 0)] == [120, 3600, 3600, 86400]


def test_corrections() -> None:
    """Each block by its group, with the bits that were wrong."""
    begins = list(ONE.begins())
    wanted = []
    for number, block, count, first in ONE.damages:
        if count < rich.LOST:
            mask = 1 << 25 - first | 1 << 26 - first - count
            wanted.append((begins[number], block + 1, f"{mask:07X}", count))
    rows = table("corrected")
    found = [(int(row["bit"]), int(row["block"]), row["burst"], int(row["burst_length"])) for row in rows]
    assert found == wanted
    words = {begins[n] + 26 * k: word for n, words in enumerate(ONE.groups) for k, word in enumerate(words)}
    assert [int(row["word"], 16) for row in rows] == [
        words[int(row["bit"]) + 26 * (int(row["block"]) - 1)] for row in rows
    ]


@pytest.mark.parametrize("number, of, least", [(0, ONE, 1.0), (2, TWO, 0.5)])
def test_outages_are_those_sent(number: int, of: rich.Recording, least: float) -> None:
    """From the end of the last valid block to the second one after, by which sync is acquired."""
    valid = [place for place, outcome in of.heard() if outcome == "valid"]
    gaps = [(one + 26, two) for one, two in zip(valid, [*valid[1:], of.length])]
    wanted = [gap for gap in gaps if gap[1] - gap[0] >= least * rich.RATE]
    assert whole(table("outages", number), "begin_bit", "end_bit") == wanted


def test_types_are_those_sent() -> None:
    """Groups whose block 2 is known, by whether it was corrected."""
    begins, outcomes = list(ONE.begins()), dict(ONE.heard())
    wanted: "Counter[Tuple[str, str, bool]]" = Counter()
    for begin, (_, second, *_) in zip(begins, ONE.groups):
        outcome = outcomes.get(begin + 26, "lost")
        if outcome != "lost":
            wanted[str(second >> 12), "AB"[second >> 11 & 1], outcome == "corrected"] += 1
    found: "Counter[Tuple[str, str, bool]]" = Counter()
    for row in table("types"):
        if row["type"] != "-":
            found[row["type"], row["version"], False] += int(row["groups"])
            found[row["type"], row["version"], True] += int(row["corrected"])
    assert +found == +wanted and len({key[:2] for key in wanted}) == 32


def test_groups_of_a_database_are_those_sent() -> None:
    """All that are not whole, and the first ones: each known block has the word sent, and the bits that were wrong are corrected."""
    (part,) = re.findall(r"FROM groups .*\n((?:\w+\.bin\|.*\n)+)", (TEXTS / "database.txt").read_text())
    whole, wrong = 0, {of.name: {one[:2] for one in of.damages} for of in (ONE, TWO)}
    for name, _, _, place, utc, seconds, kind, version, valid, *blocks in csv.reader(
        part.splitlines(), delimiter="|"
    ):
        of, at = ONE if name == "one.bin" else TWO, int(place)
        assert (utc, float(seconds)) == (utc_text(of.start + at / rich.RATE), at / rich.RATE)
        number = [*of.begins()].index(at) if at in of.begins() else None
        told = [re.fullmatch(r"(?:A|B|Cx?|D):(\w{4})(~\w+)?", block) for block in blocks]
        assert int(valid) == sum(found is not None and not found[2] for found in told)
        if number is not None and any(told):
            words, whole = of.groups[number], whole + 1
            assert all(int(found[1], 16) == word for found, word in zip(told, words) if found)
            known = [bool(found and not found[2]) for found in told]
            assert known == [(number, block) not in wrong[of.name] for block in range(4)] or number == 0
            assert not told[1] or (kind, version) == (str(words[1] >> 12), "AB"[words[1] >> 11 & 1])
    assert whole > 50


def test_programmes_are_those_sent() -> None:
    begins = list(ONE.begins())
    ours = [number for number, group in enumerate(ONE.groups) if group[0] == rich.OTHER_PI]
    first, after = begins[ours[0]], begins[ours[-1] + 1]
    rows = table("programmes")
    assert [row["pi"] for row in rows] == ["D318", "D4A9", "D318"]
    ends = whole(rows, "begin_bit", "end_bit")
    assert ends[1] == (first, after) and ends[0][1] == first and ends[2][0] == after
    assert int(rows[1]["groups"]) == len(ours)


def test_the_clock_is_the_one_sent() -> None:
    """By the ends of the groups of clock time: the rate by least squares, and a step of 1.7 seconds."""
    ticks = []
    for begin, (_, second, third, fourth) in zip(ONE.begins(), ONE.groups):
        if second >> 11 == 4 << 1:
            days = (second & 3) << 15 | third >> 1
            ticks.append(
                (
                    begin + 104,
                    (days - 40587) * 86400
                    + ((third & 1) << 4 | fourth >> 12) * 3600
                    + (fourth >> 6 & 63) * 60,
                )
            )
    parts = [numpy.array(part, float) for part in (ticks[:11], ticks[11:])]
    centred = numpy.concatenate([part - part.mean(0) for part in parts])
    rate = float(centred[:, 0] @ centred[:, 1] / (centred[:, 1] @ centred[:, 1]))
    (row,) = table("clock")
    assert (row["groups"], row["stretches"]) == ("14", "2") and row["rate"] == f"{rate:.6f}"
    (step,) = table("clock", 2)
    (before, then), (bit, time) = ticks[10], ticks[11]
    assert (int(step["bit"]), step["utc"]) == (bit, utc_text(time))
    assert float(step["step_s"]) == pytest.approx(time - then - (bit - before) / rate, abs=0.001)


def totals_of(of: rich.Recording) -> Dict[str, int]:
    """What `rds list` counts at its end, from what was sent: a group is four blocks from the start of its stretch on."""
    heard, begins = of.heard(), [*of.begins()]
    starts = [of.zeros, *(begins[outage.group] for outage in of.outages)]
    groups: Dict[int, List[str]] = {}
    for place, outcome in heard:
        start = max(start for start in starts if start <= place)
        groups.setdefault(start + (place - start) // 104 * 104, []).append(outcome)
    places = {place for place, _ in heard}
    acquired = [place for place in places if place - rich.BLOCK not in places]
    bits = [one.bits for one in of.damages if one.bits <= 2]
    outcomes = Counter(outcome for _, outcome in heard)
    return {
        "valid": outcomes["valid"],
        **{f"burst{length}": bits.count(length) for length in range(1, 6)},
        "lost": outcomes["lost"],
        "bits": sum(bits),
        "groups": len(groups),
        "complete": sum(len(one) == 4 and "lost" not in one for one in groups.values()),
        "acquired": len(acquired),
        "losses": len(acquired) - (of.end < 260),
    }


@pytest.mark.parametrize("number, of", [(1, ONE), (2, TWO)])
def test_totals_are_those_sent(number: int, of: rich.Recording) -> None:
    part = (TEXTS / "batch.txt").read_text().split("$ ")[number + 1]
    assert [line.split(",")[1:3] for line in part.splitlines()[1:]] == [
        [name, str(count)] for name, count in totals_of(of).items()
    ]


def test_faults_are_where_they_were_put() -> None:
    told = (TEXTS / "why.txt").read_text()
    assert f"the input holds {ONE.length} bits" in told and f"recording, {ONE.length} bits" in told
    text = rich.group_text(HEARD)
    byte = text.index("none") + 1
    assert f"byte {byte} (line 17, column 1) is 0x6E," in told
    assert [f"line {number}: {line}" for number, line in rich.NO_GROUPS.items()] == re.findall(
        "^line .*", told, re.M
    )
    # A block of zeros is none, so that less than four in a row are left of a group with a 0.
    whole = [words for words in HEARD if 0 not in words]
    bits = len(HEARD) * (rich.GROUP + rich.BLOCK * rich.BLOCKS_E)
    assert f"{rich.BLOCKS_E * len(whole)} of the blocks in the first {bits} bits have" in told


def received(name: str, number: int) -> List[Tuple[int, ...]]:
    """The whole groups of the command of this number in a golden text."""
    lines = (TEXTS / f"{name}.txt").read_text().split("$ ")[number + 1].splitlines()[1:]
    return [tuple(int(word, 16) for word in line.split()[:4]) for line in lines if "-" not in line]


def test_signals_have_the_groups_sent() -> None:
    """All but the first, which acquires sync, and of a capture the last one, whose bits are cut off."""
    assert received("demod", 1) == [*HEARD[1:]]
    one, other = rich.stations()
    assert received("stations", 4) == received("stations", 7) == [*other.groups[1:18]]
    (line,) = re.findall(r'"bits":"(\w+)"', (TEXTS / "stations.txt").read_text())
    sent, found = (
        "".join(f"{byte:08b}" for byte in data) for data in (encode(one.groups[:17])[1:], bytes.fromhex(line))
    )
    assert sent in found


@pytest.mark.parametrize("name, number", [("demod", 2), ("stations", 3)])
def test_signals_are_measured_as_they_were_made(name: str, number: int) -> None:
    """Of the capture's stations the noise is that of FM, so it is not known."""
    part = (TEXTS / f"{name}.txt").read_text().split("$ ")[number + 1]
    for line in re.findall(r"^! ({.*)", part, re.M):
        told = json.loads(line)
        level = 20 * numpy.log10(modulator.RDS_LEVEL / modulator.PILOT_LEVEL)
        assert told["rds_to_pilot_db"] == pytest.approx(level, abs=0.2)
        if name == "demod":
            assert told["seconds"] == pytest.approx(len(HEARD) * 104 / 1187.5, abs=0.06)
            assert told["snr_db"] == pytest.approx(rich.SNR, abs=0.3)
            assert told["carrier_offset_hz"] == pytest.approx(rich.CARRIER, abs=0.1)
            assert told["clock_offset_ppm"] == pytest.approx(rich.CLOCK, abs=3)
        else:
            (sent,) = [one for one in rich.stations() if one.offset + rich.CENTRE == told["frequency"]]
            assert told["level_dbfs"] == pytest.approx(sent.level + 20 * numpy.log10(1 / 3), abs=0.2)
            assert told["rds_khz"] == pytest.approx(75 * modulator.RDS_LEVEL, abs=0.05)


def test_nothing_is_left_out() -> None:
    """No count is another, so that two swapped columns are seen; and each alarm comes."""
    sums = Counter[str]()
    for _, outcome in ONE.heard():
        sums[outcome] += 1
    by_length = Counter(one.bits for one in ONE.damages)
    assert len({*sums.values()}) == 3 and len({*by_length.values()}) == 6
    begun = re.findall(r"^(?:.*: )?alarm (\w+) begins", (TEXTS / "watch_database.txt").read_text(), re.M)
    assert {*begun} == {*NAMES}
