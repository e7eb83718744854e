"""The columns and keys that docs/FORMATS.md names, against those that rds-monitor writes; the commands of
docs/TROUBLES.md and the picture of docs/COMPARISON.md."""

from __future__ import annotations

import json
import os
import re
import sqlite3
import sys
from pathlib import Path
from typing import Callable, Dict, List, Set

import pytest

import measure_peers
import test_readme
from conftest import TOP, rds
from made import output as said

# The fixtures of README.md's commands.
folder, done = test_readme.folder, test_readme.done
PROGRAM = os.path.realpath(test_readme.PROGRAM)

PAGE = (TOP / "docs" / "FORMATS.md").read_text(encoding="utf-8")
START = ("--start", "2026-03-29T00:30:00Z")


def words(cell: str) -> List[str]:
    return re.findall(r"`([^`]+)`", cell)


def table(head: str) -> Dict[str, List[str]]:
    """The rows of the table with this head: the words of the second cell by the first."""
    rows = PAGE.split(f"\n{head}\n", 1)[1].split("\n\n", 1)[0].splitlines()[1:]
    return {row.split("|")[1].strip().strip("`"): words(row.split("|")[2]) for row in rows}


CSV = table("| Of `rds-monitor` | Columns |")
KINDS = table(next(line for line in PAGE.splitlines() if re.fullmatch(r"\| `\w+` \| Keys \|", line)))
VIEWS = table("| View | Columns |")


@pytest.fixture(scope="module")
def listing(station: bytes) -> bytes:
    """A listing with all kinds of rows: of the station, with noise in its middle."""
    noise = bytes(n * n % 251 for n in range(2000))
    return rds("list", data=station[:2000] + noise + station[2000:4000])


@pytest.mark.parametrize("command", CSV)
def test_columns_of_csv(command: str, listing: bytes) -> None:
    with_utc = said(*command.split(), *START, data=listing).splitlines()[0].split(",")
    assert with_utc == CSV[command]
    without = said(*command.split(), data=listing).splitlines()[0].split(",")
    assert without == [name for name in with_utc if not name.endswith("_utc")]


def test_each_column_has_a_meaning() -> None:
    rows = PAGE.split("\n| Column | Means |\n", 1)[1].split("\n\n", 1)[0].splitlines()[1:]
    told = [name for row in rows for name in words(row.split("|")[1])]
    assert len(told) == len({*told}) and {*told} == {name for names in CSV.values() for name in names}


@pytest.mark.parametrize("start", [(), START])
def test_keys_of_json(start: List[str], listing: bytes) -> None:
    found: Dict[str, Set[str]] = {}
    kind = next(iter(KINDS.values()))[0]
    for options in ((), ("--rows",)):
        for line in said("json", *options, *start, data=listing).splitlines():
            keys = json.loads(line)
            found.setdefault(keys[kind], set()).add(" ".join(name for name in keys if name != "time_utc"))
            assert ("time_utc" in keys) == (bool(start) and "time_s" in keys)
    assert found == {name: {" ".join(keys)} for name, keys in KINDS.items()}


def test_columns_of_views(listing: bytes, tmp_path: Path) -> None:
    (tmp_path / "a.csv").write_bytes(listing)
    said("db", tmp_path / "a.db", tmp_path / "a.csv")
    base = sqlite3.connect(tmp_path / "a.db")
    names = [name for (name,) in base.execute("SELECT name FROM sqlite_master WHERE type = 'view'")]
    columns = {name: [row[1] for row in base.execute(f"PRAGMA table_info({name})")] for name in names}
    base.close()
    assert columns == VIEWS


def test_size_of_a_listing(station: bytes) -> None:
    """As docs/TROUBLES.md has it."""
    page = (TOP / "docs" / "TROUBLES.md").read_text(encoding="utf-8")
    least, most = map(float, re.findall(r"A listing has ([\d.]+) to ([\d.]+) times", page)[0])
    day = station * 513
    assert all(least < len(rds("list", data=data)) / len(data) <= most for data in (station, day))


def test_the_picture_of_the_comparison() -> None:
    docs = TOP / "docs"
    drawn = measure_peers.picture((docs / "COMPARISON.md").read_text(encoding="utf-8"))
    assert drawn == (docs / "noise.svg").read_text(encoding="utf-8") and drawn.count("<polyline") == 4


TROUBLES = (TOP / "docs" / "TROUBLES.md").read_text(encoding="utf-8")
BLOCKS = [re.sub("^    ", "", one, flags=re.M) for one in re.findall(r"(?:^    .*\n)+", TROUBLES, re.M)]
LOOP, COMPARED = (next(one for one in BLOCKS if word in one) for word in ("until rds list", "tests/plain.py"))


@pytest.mark.parametrize("refused", ["", "8 OutOfMemory", "14 NoWorker", "5 TooLong", "9 Read"])
def test_what_a_script_does(refused: str, folder: Path, done: Callable[[str], str]) -> None:
    """It tries again after the errors that may pass, and not after the others."""
    (folder / "day.bin").write_bytes((folder / "bits.bin").read_bytes())
    (folder / "bin" / "rds").unlink()
    again = f"[ -e tried ] || {{ touch tried; echo 'refused {refused}' >&2; exit 1; }}" if refused else ""
    for name, text in (("rds", f'{again}\nexec {PROGRAM} "$@"'), ("sleep", "exit 0")):
        (folder / "bin" / name).write_text(f"#!/bin/sh\n{text}\n")
        (folder / "bin" / name).chmod(0o755)
    goes_on = refused.split()[:1] in ([], ["8"], ["14"])
    done(LOOP if goes_on else f"! (\n{LOOP})")
    assert (folder / "day.csv").exists() == goes_on


def test_how_a_bug_is_looked_at(folder: Path, done: Callable[[str], str]) -> None:
    done("rds list < bits.bin > listing.csv")
    commands = COMPARED.replace("FILE", "bits.bin").replace(
        "tests/plain.py", f"{sys.executable} {TOP}/tests/plain.py"
    )
    assert done(f"set -e\n{commands}") == ""
