#!/usr/bin/env python3
"""What a watch of 30 stations takes: monitor/tests/load.py [bits|live|program|mpx|soft|week ..], by default all but week

bits  packed bits at 100 times real time, in ticks of 50 seconds: processor seconds
live  the command with 30 simulated receivers in real time: processor share, memory and descriptors
program  the same with a process `rds follow` per station
mpx   MPX of 192,000 samples per second in real time, in ticks of half a second: processor share, memory
soft  what soft decisions add to that, by the reception: processor share
week  30 stations over a week, in ticks of ten minutes: memory and the size of the folder, day by day

The signals are made before the clock runs. RDS names the program, RDS_LIBRARY the library. The exit status says whether all is within its
limit: a processor's whole time for `bits`, nine tenths of two processors' for `mpx`, a tenth of one for `soft`, 50 MB and 30 descriptors
per station, 120 MB for `week`.
"""

from __future__ import annotations

import os
import resource
import signal
import subprocess
import sys
import tempfile
import time
from pathlib import Path
from typing import Callable, Dict, List

import conftest  # noqa: F401 - it names the library
import modulator
import numpy
from network import START, Air, Network, Plan, Programme, Simulated, decoders_of
from station import GROUPS_PER_SECOND, RATE

COUNT, SPEED = 30, 100
STATION = conftest.TOP / "monitor" / "demo" / "station.py"
MEMORY_MB, DESCRIPTORS, WEEK_MB = 50, 30, 120


def cpu_seconds() -> float:
    used = resource.getrusage(resource.RUSAGE_SELF)
    return used.ru_utime + used.ru_stime


def memory_mb() -> float:
    return int(Path("/proc/self/statm").read_text().split()[1]) * resource.getpagesize() / 1e6


def names(count: int) -> List[str]:
    return [f"S{n:02}" for n in range(count)]


def table(count: int, *lines: str) -> str:
    every = [["[[station]]", f'name = "{name}"', f'command = ["{name}"]', *lines] for name in names(count)]
    return "\n".join(line for station in every for line in station) + "\n"


def said(text: str, within: bool) -> int:
    print(f"{text} {'' if within else '!'}", flush=True)
    return not within


def bits(folder: Path) -> int:
    """Ten minutes first, in which all that is sent becomes known."""
    seconds, tick = 3600.0, 50.0
    air = Air(Programme(0xD318, "ALPHA", "Now: nothing much", wrong_pi=None), START, seconds + 700)
    network = Network(folder, table(COUNT), {name: air for name in names(COUNT)})
    network.run(600, tick)
    begin = cpu_seconds()
    network.run(seconds, tick)
    used = cpu_seconds() - begin
    network.end()
    speed = seconds / used
    text = (
        f"bits: {COUNT} stations, {seconds:.0f} s in {used:.1f} s of a processor, {speed:.0f} times real time"
    )
    return said(f"{text}, limit {SPEED}; {memory_mb():.0f} MB", speed >= SPEED)


def live(folder: Path, name: str = "live", *options: str) -> int:
    lines = [f'folder = "{folder}"']
    for n, station in enumerate(names(COUNT)):
        words = [sys.executable, str(STATION), "--pi", f"{0xD300 + n:04X}", "--ps", station]
        words += ["--rt", "Now: nothing", "--errors", "0.001"]
        lines += ["[[station]]", f'name = "{station}"', f"command = {words!r}".replace("'", '"')]
    (folder / "stations.toml").write_text("\n".join(lines))
    words = [sys.executable, "-m", "rds_monitor", "watch", *options, str(folder / "stations.toml")]
    process = subprocess.Popen(words, stderr=subprocess.DEVNULL)
    time.sleep(30)
    all_of_it = [process.pid, *decoders_of(process.pid)]
    before = sum(map(used_by, all_of_it))
    time.sleep(60)
    used = sum(map(used_by, all_of_it)) - before
    pages = sum(int(Path(f"/proc/{pid}/statm").read_text().split()[1]) for pid in all_of_it)
    memory, count = pages * resource.getpagesize() / 1e6, len(list(Path(f"/proc/{process.pid}/fd").iterdir()))
    process.send_signal(signal.SIGTERM)
    process.wait()
    within = memory <= MEMORY_MB * COUNT and count <= DESCRIPTORS * COUNT
    text = f"{name}: {COUNT} stations, {100 * used / 60:.0f} % of a processor, {memory:.0f} MB, {count} descriptors"
    return said(f"{text}, {len(all_of_it)} processes", within)


def used_by(pid: int) -> float:
    """Processor seconds of a process."""
    fields = Path(f"/proc/{pid}/stat").read_text().rpartition(")")[2].split()
    return sum(map(int, fields[11:13])) / os.sysconf("SC_CLK_TCK")


def program(folder: Path) -> int:
    return live(folder, "program", "--program", conftest.PROGRAM)


def parts(first: int, after: int, size: int, part: Callable[[int], bytes]) -> bytes:
    """Bytes from position to position of parts that have the same size."""
    numbers = range(first // size, after // size + 1)
    return b"".join(part(n)[max(first, n * size) - n * size : after - n * size] for n in numbers)


class MpxAir:
    """Seconds of MPX, over and over."""

    RATE = 192000
    TABLE = 'form = "mpx"', 'raw = "s16"', f"rate = {RATE}"

    def __init__(self, snr: float = 30, groups: int = 120) -> None:
        programme = Programme(0xD318, "ALPHA", "Now: nothing")
        data = conftest.encode([programme.group(n) for n in range(groups)])
        self._data = modulator.stored(modulator.mpx(data, self.RATE, snr=snr), "s16")
        self.begin = START

    def at(self, seconds: float) -> int:
        return int(seconds * self.RATE) * 2

    def bytes(self, first: int, after: int) -> bytes:
        return parts(first, after, len(self._data), lambda n: self._data)


def mpx(folder: Path) -> int:
    air, seconds = MpxAir(), 30
    network = Network(folder, table(COUNT, *MpxAir.TABLE), {name: air for name in names(COUNT)})  # type: ignore[misc]
    network.run(5)
    begin = cpu_seconds()
    network.run(seconds)
    used = (cpu_seconds() - begin) / seconds
    network.end()
    within = used <= 1.8 and memory_mb() <= MEMORY_MB * COUNT
    text = f"mpx: {COUNT} stations, {100 * used:.0f} % of a processor, limit 180 %"
    return said(f"{text}; {memory_mb():.0f} MB", within)


def ticks(folder: Path, air: MpxAir) -> List[List[float]]:
    """The processor's seconds of ticks of a station, by hard decisions and by soft ones, in turn."""
    networks = []
    for name, *lines in (("hard", "soft = false"), ("soft",)):
        (folder / name).mkdir(parents=True)
        networks.append(Network(folder / name, table(1, *MpxAir.TABLE, *lines), {"S00": air}))  # type: ignore[dict-item]
        networks[-1].run(6, 0.5)
    return [[used_by_tick(network) for network in networks] for _ in range(240)]


def used_by_tick(network: Network) -> float:
    begin = time.thread_time()
    network.run(0.5, 0.5)
    return time.thread_time() - begin


def soft(folder: Path) -> int:
    """By the medians of what ticks take, and of their differences: other work on the machine makes some longer."""
    failed = 0
    for snr in (20, -1, -3):
        found = numpy.array(ticks(folder / str(snr), MpxAir(snr, 1500)))
        hard, more = (2 * COUNT * numpy.median(of) for of in (found[:, 0], found[:, 1] - found[:, 0]))
        text = f"soft: {snr} dB, {100 * more:.1f} % of a processor more than {100 * hard:.0f} %, limit 10 %"
        failed += said(text, more <= 0.1)
    return failed


class Endless:
    """A station on the air, an hour at a time: RDS, with a text of the hour, for its first quarter, so that a week takes less of a
    processor."""

    COUNT = 41100

    def __init__(self) -> None:
        self._hours: Dict[int, bytes] = {}
        self._first = int(START * GROUPS_PER_SECOND)

    def at(self, seconds: float) -> int:
        return int(seconds * RATE / 8)

    def _hour(self, number: int) -> bytes:
        """The groups of an hour."""
        if number not in self._hours:
            sent, first = Programme(0xD318, "ALPHA", f"Song {number}"), self._first + number * self.COUNT
            before = {n: data for n, data in self._hours.items() if n == number - 1}
            data = conftest.encode([sent.group(first + n) for n in range(self.COUNT // 4)])
            self._hours = {**before, number: data.ljust(self.COUNT * 13, b"\0")}
        return self._hours[number]

    def bytes(self, first: int, after: int) -> bytes:
        return parts(first, after, self.COUNT * 13, self._hour)


def week(folder: Path) -> int:
    """All receivers give the same, and die each five hours. Listings are kept for a day and the database for two."""
    keep = "[keep]\nlistings_days = 1\ndatabase_days = 2\n"
    airs = dict.fromkeys(names(COUNT), Endless())
    plans = {name: [Plan(dies=18000.0) for _ in range(60)] for name in airs}
    network = Network(folder, keep + table(COUNT), airs, plans)  # type: ignore[arg-type]
    most = []
    for day in range(1, 8):
        begin, seen = cpu_seconds(), []
        for _ in range(24):
            network.run(3600, 600)
            # Notes of the simulation itself.
            for notes in (network.said, network.runs, network.given):
                notes.clear()
            seen.append(memory_mb())
        most.append(max(seen))
        size = sum(path.stat().st_size for path in folder.rglob("*") if path.is_file()) / 1e6
        used = f"{cpu_seconds() - begin:.0f} s, at most {most[-1]:.0f} MB of memory"
        print(f"week: day {day}, {used}, {size:.1f} MB in the folder", flush=True)
    network.end()
    within = max(most) < WEEK_MB and most[-1] < 1.05 * most[0]
    return said(f"week: {most[-1] - most[0]:+.1f} MB from the first day to the last", within)


KINDS = {"bits": bits, "live": live, "program": program, "mpx": mpx, "soft": soft, "week": week}


def main(words: List[str]) -> int:
    failed = 0
    Simulated.keeps = False
    for name in words or ["bits", "live", "program", "mpx", "soft"]:
        with tempfile.TemporaryDirectory() as folder:
            failed += KINDS[name](Path(folder))
    return min(failed, 1)


if __name__ == "__main__":
    sys.exit(main(sys.argv[1:]))
