"""Listings byte for byte: the sum of each text is that of tests/plain.py, in listings.sums; no crew changes a list.

`python3 tests/test_listings.py` writes the sums anew, by plain.py alone.
"""

from __future__ import annotations

import functools
import hashlib
import itertools
from typing import Iterator

import plain
import pytest
from inputs import chances, sent, words
from running import TOP, run, wrote

TABLE = TOP / "tests" / "listings.sums"
INPUTS = ["clean", "damaged", "slips", "noise", "mixed", "station", "empty"]
GAPS = "--gaps 0-1,1000-1030,20000-20026,20026-20027,99999-101000,150000-150001"
pytestmark = pytest.mark.xdist_group("listings")


def texts() -> Iterator[str]:
    """The texts that are made: an input and the words of a job."""
    loose = ["list --burst 0 --reach 1 --loss 1", "list --burst 5 --reach 8 --loss 64"]
    yield from (f"{name} {job}" for name in INPUTS for job in ["scan", "list", "totals", *loose])
    yield from (f"station list --bits {bits}" for bits in (1, 26, 1037, 99999))
    rules = [
        *(f"--burst {burst}" for burst in (1, 3, 4)),
        *(f"--reach {reach}" for reach in range(1, 9) if reach != 3),
    ]
    rules += ["--loss 2", "--loss 5", "--loss 33", "--share 8 --of 40", "--share 20 --of 64"]
    rules += [GAPS, f"{GAPS} --burst 5 --reach 8 --share 5 --of 9"]
    for name in ("slips", "mixed"):
        yield from (f"{name} list {rule}" for rule in rules)
        yield from (f"{name} scan {GAPS}", f"{name} totals {GAPS} --burst 4 --loss 5")


def damaged(lines: list[str], seed: int, rarity: int) -> list[str]:
    """Lines of digits, with one digit in `rarity` changed."""
    numbers, rows = chances(seed), []
    for line in lines:
        drawn = [(digit, next(numbers)) for digit in line]
        rows.append("".join(digit if x % rarity else f"{x // rarity % 16:x}" for digit, x in drawn))
    return rows


def slipped(lines: list[str], every: int) -> list[str]:
    """One line in `every` loses its first digit, and one 50 lines later has an additional digit."""
    rows = [line if number % every else line[1:] for number, line in enumerate(lines, 1)]
    return [f"5{row}" if number % every == 50 else row for number, row in enumerate(rows, 1)]


@functools.cache
def recordings() -> dict[str, bytes]:
    """The recordings as digits."""
    rows: dict[str, list[str]] = {"clean": sent(words(11, 20000)), "noise": words(14, 6000), "empty": []}
    rows["damaged"] = damaged(rows["clean"], 12, 97)
    rows["slips"] = damaged(slipped(rows["clean"][:4900], 100), 13, 800)
    rows["mixed"] = rows["clean"][:700] + rows["noise"][:900] + rows["damaged"][-800:]
    rows["mixed"] += rows["slips"][:300] + rows["noise"][:3]
    rows["station"] = [(TOP / "examples" / "station.bin").read_bytes().hex()]
    return {name: "".join(f"{row}\n" for row in rows[name]).encode() for name in INPUTS}


def sums() -> dict[str, str]:
    """The table: each text with its sum."""
    rows = [line.split("  ", 1) for line in TABLE.read_text().splitlines()]
    assert len({text for _, text in rows}) == len(rows), "two lines of a text"
    return {text: total for total, text in rows}


def test_table_has_each_text() -> None:
    assert [*sums()] == [*texts()] and TABLE.read_text().endswith("\n")


@pytest.mark.parametrize("text", texts())
def test_sum(rds: str, text: str) -> None:
    name, *job = text.split()
    assert hashlib.sha256(wrote(rds, *job, "--hex", data=recordings()[name])).hexdigest() == sums()[text]


@functools.cache
def list_by_one(rds: str, name: str) -> bytes:
    return wrote(rds, "list", "--hex", "--pieces", 1, "--workers", 1, data=recordings()[name])


CREWS = [(1, 2), (2, 2), (5, 3), (16, 4), (97, 16), (3, 256)]


@pytest.mark.parametrize("name, crew", itertools.product(INPUTS, CREWS))
def test_crew(rds: str, name: str, crew: tuple[int, int]) -> None:
    words = ["list", "--hex", "--pieces", crew[0], "--workers", crew[1]]
    assert run(rds, *words, data=recordings()[name]) == (0, list_by_one(rds, name), b"")


if __name__ == "__main__":
    rows = []
    for text in texts():
        name, *job = text.split()
        listed = plain.text_of(plain.arguments().parse_args([*job, "--hex"]), recordings()[name])
        assert listed is not None
        rows.append(f"{hashlib.sha256(listed).hexdigest()}  {text}\n")
    TABLE.write_text("".join(rows))
