"""Work done twice: what each job of work.bounds takes, beside its bounds. Its first line names them.

Only there shows a second pass over a recording, a run that is made again, or a list that is copied or kept for too long. Less than half of a
bound fails too: then the bound is too wide, or the job was not done. If a job starts no thread, less than four fifths fails, and of
instructions less than nine tenths. Threads are exact. Of reads and writes one per 64 KiB is allowed, and four more.

Recordings are a few megabytes long, but for the smallest jobs: there a table that is made twice shows. refuse.c counts the calls.
`python3 tests/test_work.py PATH-TO-RDS JOB..` measures jobs anew, such as 'empty list --workers 1', and writes their bounds: the most of
three runs and a tenth to spare, a hundredth for the smallest jobs, a twentieth for instructions.
"""

from __future__ import annotations

import os
import random
import re
import subprocess
import sys
import tempfile
import time
from functools import lru_cache
from itertools import accumulate
from operator import xor
from pathlib import Path
from typing import Callable, NamedTuple

import pytest
import worst_inputs
from inputs import gaps, make_refuse, past_mending, words
from running import LIMIT, TOP, instructions, needs, run, wrote

TABLE = TOP / "tests" / "work.bounds"
STATION = (TOP / "examples" / "station.bin").read_bytes()
# Of the numbers of a line, what each bounds; a job's name and words follow.
NAMES = ["allocations", "bytes", "bytes at the peak", "threads"]
pytestmark = pytest.mark.xdist_group("work")


class Line(NamedTuple):
    """A line of the table: a job, and its bounds."""

    job: str
    bounds: list[int]

    @property
    def counts_instructions(self) -> bool:
        return self.job.startswith("instructions ")


def lines() -> list[Line]:
    """The lines of the table, which must be whole, and have each job once."""
    text = TABLE.read_text()
    found = re.findall(r"^([\d ]+) (\D.*)$", re.sub("^#.*\n", "", text, flags=re.M), re.M)
    assert found and text.endswith("\n"), f"{TABLE}: there is no line, or the last one is cut off"
    table = [Line(job, [*map(int, numbers.split())]) for numbers, job in found]
    assert all(len(line.bounds) == (1 if line.counts_instructions else 4) for line in table), table
    rows = text.count("\n") - text.count("#")
    assert len({line.job for line in table}) == len(table) == rows, "two lines of a job"
    return table


# ---- the inputs


def groups(rds: str, rows: list[str]) -> bytes:
    """The bytes of groups that are given as lines of digits."""
    return wrote(rds, "encode", data="\n".join(rows).encode())


def worst(rds: str, count: int) -> bytes:
    sent = groups(rds, words(47, count)).hex()
    return bytes.fromhex("".join(past_mending([sent[k : k + 26] for k in range(0, len(sent), 26)])))


def wrong(share: float, times: int) -> bytes:
    """A station's groups, with at most that share of their bits turned."""
    held, chance = bytearray(times * STATION), random.Random(41)
    for _ in range(int(8 * len(held) * share)):
        held[chance.randrange(len(held))] ^= 1 << chance.randrange(8)
    return bytes(held)


def dump(held: bytes, spoilt: int = 0) -> bytes:
    """Digits, 16 bytes a line; in each line whose number is a multiple of `spoilt` a byte is another."""
    rows = [held[k : k + 16].hex(" ") for k in range(0, len(held), 16)]
    is_spoilt = [spoilt > 0 and number % spoilt == 0 for number in range(1, len(rows) + 1)]
    lines = [f"{row[:3]}ff{row[5:]}\n" if other else f" {row}\n" for row, other in zip(rows, is_spoilt)]
    return "".join(lines).encode()


def symbols(held: bytes) -> bytes:
    """Symbols with these bits between them, so one more than they are, each as sure as the others."""
    bits = (byte >> 7 - k & 1 for byte in held for k in range(8))
    return bytes(100 if is_up else 156 for is_up in accumulate(bits, xor, initial=0))


def lines_of(rows: list[str]) -> bytes:
    return "".join(f"{row}\n" for row in rows).encode()


def version_b() -> list[str]:
    """Groups of version B, whose block 3 has the programme of block 1."""
    return [f"d393{row[4]}8{row[6:8]}d393{row[12:]}" for row in words(23, 30000)]


# Of the last two a sixteenth and a thousandth are bits that put each next guess on the next phase.
INPUTS: dict[str, Callable[[str], bytes]] = {
    "empty": lambda rds: b"",
    "sample": lambda rds: STATION,
    "samples": lambda rds: 4 * STATION,
    "static": lambda rds: bytes.fromhex("".join(words(17, 7500))),
    "few_wrong": lambda rds: wrong(0.01, 1),
    "few_worst": lambda rds: worst(rds, 700),
    "lines": lambda rds: lines_of(words(19, 3000)),
    "station": lambda rds: 160 * STATION,
    "noise": lambda rds: lines_of(words(17, 200000)),
    "words": lambda rds: lines_of(words(19, 160000)),
    "digits": lambda rds: dump(40 * STATION),
    "damaged": lambda rds: dump(40 * STATION, 4),
    "version_b": lambda rds: 10 * groups(rds, version_b()),
    **{f"wrong{share}": lambda rds, share=share: wrong(share, 40) for share in (0.0005, 0.003, 0.01, 0.03)},  # type: ignore[misc]
    "worst": lambda rds: 10 * worst(rds, 15000),
    "symbols": lambda rds: symbols(10 * STATION),
    "more_symbols": lambda rds: symbols(40 * STATION),
    "wrong_symbols": lambda rds: symbols(wrong(0.03, 10)),
    "short_locks": lambda rds: worst_inputs.recording("short_locks", 2005250),
    "three_phases": lambda rds: worst_inputs.recording("three_phases", 2005250),
}
# Words of jobs: ten thousand gaps, and as many that most groups touch none.
GAPS = {"GAPS": gaps(10000, 9, 5), "NEAR": gaps(3000, 9, 5)}


# ---- what a job takes


class Work:
    """Jobs of a program, in a folder that keeps their inputs."""

    def __init__(self, rds: str, folder: Path) -> None:
        self.rds, self.folder, self.refuse = rds, folder, make_refuse(folder)

    @lru_cache(None)
    def input(self, name: str) -> Path:
        path = self.folder / name
        path.write_bytes(INPUTS[name](self.rds))
        return path

    def command(self, job: str) -> tuple[Path, list[str]]:
        name, *given = job.removeprefix("instructions ").split()
        return self.input(name), [self.rds, *(GAPS.get(word, word) for word in given)]

    def count(self, job: str) -> dict[str, int]:
        """The calls of a job, by the names of NAMES and more."""
        path, command = self.command(job)
        counts, out = self.folder / "counts", self.folder / "out"
        names = {"REFUSE_COUNT": str(counts), "LD_PRELOAD": str(self.refuse), "LIMIT": str(LIMIT)}
        with path.open("rb") as given, out.open("wb") as to:
            ended = run(*command, stdin=given, stdout=to, env={**os.environ, **names})
        assert ended.status == 0, f"{job}: {ended}"
        told = dict(line.split() for line in counts.read_text().splitlines())
        keys = ("alloc", "bytes", "peak", "thread", "read", "write")
        numbers = dict(zip([*NAMES, "reads", "writes"], (int(told[key]) for key in keys)))
        return {**numbers, "bytes read": path.stat().st_size, "bytes written": out.stat().st_size}

    def instructions(self, job: str) -> int:
        path, command = self.command(job)
        return instructions(command, path)


def some(size: int) -> int:
    """How many reads or writes these bytes may take."""
    return size // 65536 + 4


def ranges(line: Line, counts: dict[str, int]) -> dict[str, tuple[int, int]]:
    """The least and the most of each count."""
    *bounds, threads = line.bounds
    least = {name: (most + 1) // 2 if threads else most * 4 // 5 for name, most in zip(NAMES, bounds)}
    held, written = counts["bytes read"], counts["bytes written"]
    writes_nothing = line.job.startswith("empty") or line.job.endswith("--bits 0")
    return {
        **{name: (least[name], most) for name, most in zip(NAMES, bounds)},
        "threads": (threads, threads),
        "reads": (1, some(held)),
        "writes": (int(written > 0), some(written)),
        "bytes written": (200 if re.search("totals|list", line.job) else 0 if writes_nothing else 1, 1 << 40),
    }


def faults(line: Line, counts: dict[str, int]) -> list[str]:
    return [
        f"{line.job}: {counts[name]} {name}, where {least} to {most} are allowed"
        for name, (least, most) in ranges(line, counts).items()
        if not least <= counts[name] <= most
    ]


@pytest.fixture(scope="session")
def work(rds: str, tmp_path_factory: pytest.TempPathFactory) -> Work:
    return Work(rds, tmp_path_factory.mktemp("work"))


def lines_for(counts_instructions: bool) -> pytest.MarkDecorator:
    chosen = [line for line in lines() if line.counts_instructions == counts_instructions]
    return pytest.mark.parametrize("line", chosen, ids=lambda line: line.job)


@lines_for(counts_instructions=False)
def test_job(work: Work, line: Line, cases: Callable[[int], None]) -> None:
    counts = work.count(line.job)
    told = faults(line, counts)
    assert not told, "\n".join(told)
    cases(len(ranges(line, counts)))


@lines_for(counts_instructions=True)
def test_instructions(work: Work, line: Line) -> None:
    needs("valgrind")
    assert line.bounds[0] * 9 // 10 <= work.instructions(line.job) <= line.bounds[0]


def test_each_bound_is_looked_at(work: Work) -> None:
    job = "sample scan --workers 4"
    counts = work.count(job)
    most = [counts[name] for name in NAMES[:3]]
    assert len(faults(Line(job, [1, 1, 1, 99]), counts)) == 4
    assert len(faults(Line(job, [*(2 * number + 1 for number in most), counts["threads"]]), counts)) == 3
    alone = Line("sample scan --workers 1", [*(number * 5 // 4 + 2 for number in most), 0])
    assert len(faults(alone, {**counts, "threads": 0, "reads": 99, "writes": 99, "bytes written": 0})) == 6


def seconds_of_threads(command: list[str], path: Path) -> list[float]:
    """The CPU-seconds of each thread of a job."""
    spent: dict[str, float] = {}
    with path.open("rb") as given:
        child = subprocess.Popen(command, stdin=given, stdout=subprocess.DEVNULL)
    while child.poll() is None:
        time.sleep(0.002)
        for task in Path(f"/proc/{child.pid}/task").glob("*/schedstat"):
            try:
                spent[str(task)] = int(task.read_text().split()[0]) / 1e9
            except (OSError, IndexError):
                pass
    return [*spent.values()]


@pytest.mark.alone
def test_no_worker_takes_more_than_half(work: Work) -> None:
    """The thread that writes is one of them. A busy machine may start the others late, so the best of some attempts counts."""
    path, command = work.command("station scan --workers 4")
    for _ in range(15):
        spent = seconds_of_threads(command, path)
        if sum(spent) > 0 and max(spent) <= sum(spent) / 2:
            return
        time.sleep(0.5)
    pytest.fail(f"one of {spent} CPU-seconds")


# ---- bounds, measured anew


def measured(work: Work, line: Line) -> Line:
    """The bounds of three runs; threads are kept, but for a new job."""
    if line.counts_instructions:
        count = work.instructions(line.job)
        return line._replace(bounds=[count + count // 20])
    runs = [work.count(line.job) for _ in range(3)]
    most = [max(counts[name] for counts in runs) for name in NAMES[:3]]
    spare = 10 if most[1] >= 1000000 else 100
    threads = line.bounds[3:] or [runs[0]["threads"]]
    return line._replace(bounds=[count + count // spare for count in most] + threads)


def main(rds: str, *jobs: str) -> None:
    head = TABLE.read_text().partition("\n")[0]
    table = {line.job: line for line in lines()}
    with tempfile.TemporaryDirectory() as folder:
        work = Work(os.path.realpath(rds), Path(folder))
        for job in jobs:
            before = table.get(job, Line(job, []))
            table[job] = measured(work, before)
            print(f"{job}: {before.bounds} -> {table[job].bounds}")
    rows = (f"{' '.join(map(str, line.bounds))} {line.job}" for line in table.values())
    TABLE.write_text("\n".join([head, *rows]) + "\n")


if __name__ == "__main__":
    main(*sys.argv[1:])
