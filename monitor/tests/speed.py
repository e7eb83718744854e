#!/usr/bin/env python3
"""Processor seconds of the commands over a day, beside those of `rds list --workers 1`: monitor/tests/speed.py [RUNS]

The day is 985,000 groups of the sample, 12.8 MB, with one bit in 100 wrong, always the same. Of RUNS runs (5) the least
counts; the list is run beside each. Prints a row per command: seconds and peak memory from the recording and from its listing, and how many times
those of the list they are. The exit status says whether all are within their limits. RDS names the program, RDS_LIBRARY
the library.
"""

from __future__ import annotations

import os
import subprocess
import sys
import tempfile
from pathlib import Path
from typing import List, NamedTuple, Optional, Sequence, Tuple

from conftest import COMMAND, PROGRAM, STATION

GROUPS = 985000
# Of all commands but report.
MEMORY_MB = 100


class Limit(NamedTuple):
    """A command, and how many times the seconds of the list it may take from a recording and from a listing."""

    words: str
    recording: float = 4
    listing: float = 10


LIMITS = (
    *map(Limit, ("errors", "outages", "groups", "programmes", "types")),
    Limit("info", 15, 20),
    Limit("json --redsea", 20, 25),
    Limit("db --name day {folder}/day.db", 20, 25),
)


def make_day(path: Path) -> None:
    import librds
    from made import damaged

    rows = librds.items_array(STATION.read_bytes())
    rows = rows[rows["what"] == 2][1:-1]
    groups = list(zip(*(rows[f"info{block}"].tolist() for block in (1, 2, 3, 4))))
    sent, size = (librds.encode(groups) * (GROUPS // len(groups) + 1))[: 13 * GROUPS], 1 << 20
    with open(path, "wb") as file:
        for begin in range(0, len(sent), size):
            file.write(damaged(sent[begin : begin + size], 0.01, begin))


def measured(words: Sequence[str], given: Optional[Path], into: Path, runs: int) -> Tuple[float, float]:
    """The least processor seconds of some runs, and the most memory in MB."""
    times, most = [], 0
    for _ in range(runs):
        with open(given or os.devnull, "rb") as stdin, open(into, "wb") as stdout:
            process = subprocess.Popen(words, stdin=stdin, stdout=stdout)
            _, status, used = os.wait4(process.pid, 0)
        if status:
            sys.exit(f"{' '.join(words)}: status {status}")
        times.append(used.ru_utime + used.ru_stime)
        most = max(most, used.ru_maxrss)
    return min(times), most / 1024


def main(runs: int) -> int:
    failed = 0
    with tempfile.TemporaryDirectory() as name:
        folder = Path(name)
        day, listing = folder / "day.bin", folder / "day.csv"
        # In a process of its own: the memory of this one would count for those it starts.
        subprocess.run([sys.executable, __file__, "--make", str(day)], check=True)
        lister = [PROGRAM, "list", "--workers", "1"]
        unit, _ = measured(lister, day, listing, runs)
        print(f"rds list --workers 1: {unit:.2f} s")
        columns = f"{'times':>6} {'limit':>5} {'MB':>4}"
        print(f"{'command':13} {'recording':>9} {columns}   {'listing':>9} {columns}")
        for limit in LIMITS:
            row = [f"{' '.join(limit.words.split()[:2])[:13]:13}"]
            for path, most in ((day, limit.recording), (listing, limit.listing)):
                words = [*COMMAND, *limit.words.format(folder=folder).split(), str(path)]
                seconds, memory = measured(words, None, folder / "out", runs)
                unit = min(unit, measured(lister, day, folder / "again", runs)[0])
                within = seconds <= most * unit and memory < MEMORY_MB
                failed += not within
                row.append(
                    f"{seconds:9.2f} {seconds / unit:6.1f} {most:5.0f} {memory:4.0f} {' ' if within else '!'}"
                )
            print(" ".join(row), flush=True)
        failed += not report_within_its_limit(folder, runs)
        failed += not demod_within_its_limit(folder, runs)
    return min(failed, 1)


# CPU-seconds for a day's page, and its size; and for a minute of 192 kHz MPX.
REPORT_SECONDS, REPORT_BYTES, DEMOD_SECONDS = 5.0, 1_000_000, 1.0


def report_within_its_limit(folder: Path, runs: int) -> bool:
    words = ["report", "--start", "2026-03-29T00:30:00Z", str(folder / "day.bin")]
    seconds, _ = measured([*COMMAND, *words], None, folder / "out", runs)
    size = (folder / "out").stat().st_size
    within = seconds <= REPORT_SECONDS and size < REPORT_BYTES
    limits = f"limit {REPORT_SECONDS}; {size} bytes, limit {REPORT_BYTES}"
    print(f"report of a day: {seconds:.2f} s, {limits} {' ' if within else '!'}")
    return within


def demod_within_its_limit(folder: Path, runs: int) -> bool:
    from modulator import make_minute

    subprocess.run([sys.executable, make_minute.__code__.co_filename, str(folder / "mpx.wav")], check=True)
    seconds, memory = measured([*COMMAND, "demod", str(folder / "mpx.wav")], None, folder / "out", runs)
    within = seconds <= DEMOD_SECONDS and memory < MEMORY_MB
    limits = f"limit {DEMOD_SECONDS}, {memory:.0f} MB"
    print(f"demod of a minute of 192 kHz MPX: {seconds:.2f} s, {limits} {' ' if within else '!'}")
    return within


if __name__ == "__main__":
    # As installed: modules are compiled once, and the output has a buffer.
    for variable in ("PYTHONDONTWRITEBYTECODE", "PYTHONUNBUFFERED"):
        os.environ.pop(variable, None)
    arguments: List[str] = sys.argv[1:]
    if arguments[:1] == ["--make"]:
        sys.exit(make_day(Path(arguments[1])))
    sys.exit(main(int(arguments[0]) if arguments else 5))
