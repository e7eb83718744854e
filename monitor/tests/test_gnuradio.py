"""The same groups read by gr-rds, an independent decoder, if it is installed."""

from __future__ import annotations

import csv
import datetime
import io
import re
import subprocess
from pathlib import Path
from typing import Dict, List

import pytest

from conftest import STATION, TOP, encode
from made import output as said
from measure_peers import TABLES
from sent import Words, clock, group, name, text

READER = Path(__file__).with_name("gnuradio_reader.py")
PYTHON = "/usr/bin/python3"
# The bits of DI come in the order of their segments. gr-rds calls the one of segment 0 stereo; by the standard that is
# d3, dynamic PTY.
FLAGS = ("tp", "ta", "ms", "di_dynamic_pty", "di_compressed", "di_artificial_head", "di_stereo")


def has_gnuradio() -> bool:
    return subprocess.run([PYTHON, "-c", "import pmt, rds; rds.parser"], capture_output=True).returncode == 0


pytestmark = pytest.mark.skipif(not has_gnuradio(), reason="gr-rds is not installed")


def theirs(path: Path) -> Dict[str, str]:
    """What gr-rds says last of each kind."""
    done = subprocess.run([PYTHON, READER, path], capture_output=True, check=True)
    found = dict(line.split(",", 1) for line in done.stdout.decode().splitlines())
    names = {"0": "pi", "1": "ps", "2": "pty", "3": "flags", "4": "rt", "5": "ct", "6": "af"}
    return {names[number]: value.rstrip() for number, value in found.items() if number in names}


def ours(path: Path) -> Dict[str, str]:
    return {row["item"]: row["value"] for row in csv.DictReader(io.StringIO(said("info", "--csv", path)))}


def local(clock_time: str) -> str:
    """The local time from gr-rds' words: UTC, and the hours of the offset."""
    utc, offset = re.fullmatch(r"(.*) \(([-+]\d+\.\d)h\)", clock_time).groups()
    zone = datetime.timezone(datetime.timedelta(hours=float(offset)))
    time = datetime.datetime.strptime(f"{utc} +0000", "%d.%m.%Y, %H:%M %z")
    return time.astimezone(zone).isoformat(timespec="minutes")


LONG = b"A text that is as long as it is, and ends in blanks alone".ljust(64)
AF = [0xE301, 0x3264]
CASES: Dict[str, List[Words]] = {
    "all flags": [*name(b"PAXO 318", AF, flags=28), *text(LONG), clock(61128, 1, 30, 4)],
    "no flags": [*name(b"ABCDEFGH", AF, flags=0, tp=0), *text(LONG, tp=0)],
    "version B": [*name(b"PAXO 318", kind="0B"), *text(LONG[:32], kind="2B"), clock(61128, 22, 59, -7)],
    "a feature each": [
        *(*name(b"PAXO 318", AF), group("1A", 0, 0xE0), group("14A", 0, 0x4142, 0xD312)),
        *(group("3A", 22, 0, 0x4BD7), group("10A", 0, 0x4142, 0x4344), *text(LONG)),
    ],
}


@pytest.mark.parametrize("which", [*CASES, "the sample"])
def test_a_reading_by_gnuradio_agrees(which: str, tmp_path: Path) -> None:
    path = tmp_path / "reading.bin"
    groups = [group("15A", 0x1F), *2 * CASES.get(which, [])]
    path.write_bytes(encode(groups) if which in CASES else STATION.read_bytes())
    read, held = theirs(path), ours(path)
    assert [read[item] for item in ("pi", "ps", "rt")] == [held[item] for item in ("pi", "ps", "rt")]
    assert read["pty"].lower() == held["pty"].split(" ", 1)[1].lower()
    flags = {item: flag == "1" for item, flag in zip(FLAGS, read["flags"])}
    assert flags == {item: held[item] in ("yes", "music") for item in FLAGS}
    assert "ct" not in read or local(read["ct"]) == held["ct"]
    if "af" in read and "af" in held:
        found = {f"{float(one):.1f}" for one in re.findall(r"[\d.]+(?=MHz)", read["af"])}
        assert found <= {*held["af"].split()}


@pytest.mark.parametrize("name, case", [("signal", "0 dB"), ("bits", "1 %")])
def test_a_row_of_the_comparison(name: str, case: str) -> None:
    """The tables of docs/COMPARISON.md are those that measure_peers.py prints, but for what other sums may change."""
    lines = (TOP / "docs" / "COMPARISON.md").read_text().splitlines()
    (row,) = (line for line in lines if line.startswith(f"| {case} |"))
    measured = " ".join(TABLES[name].row(1, *TABLES[name].cases[case]))
    stated, found = (
        [int(number) for number in re.findall(r"\d+", text)] for text in (row[len(case) + 4 :], measured)
    )
    assert stated == pytest.approx(found, rel=0.02, abs=3) and len(stated) == len(found)
