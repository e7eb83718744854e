"""A simulated network in this process: a clock, stations that are on the air, and receivers that fail as they are told."""

from __future__ import annotations

import json
import os
import sqlite3
import sys
from functools import lru_cache
from pathlib import Path
from typing import Any, Callable, Dict, List, Mapping, NamedTuple, Optional, Sequence, Tuple, Union

import numpy
import zstandard

from conftest import TOP, encode
from rds_monitor.rows.decoders import ByLibrary, NewDecoder
from rds_monitor.rows.hours import Hour, hour_of
from rds_monitor.rows.items import Rows
from rds_monitor.watch.loop import Watch
from rds_monitor.watch.receiver import Process
from rds_monitor.watch.records import Records
from rds_monitor.watch.recover import recover, rows_of
from rds_monitor.watch.table import table_of
from rds_monitor.watch.times import Now, Times
from rds_monitor.watch.writer import Batch, Writer, WriterThread

sys.path.insert(0, str(TOP / "monitor" / "demo"))

from station import GROUPS_PER_SECOND, RATE, Programme  # noqa: E402

# Half a minute before an hour of UTC, on 2026-11-27.
START = 1795748370.0


class SimulatedTimes(Times):
    """A clock that stands still between two calls of `pass_by`."""

    def __init__(self, utc: float = START, speed: float = 1.0):
        super().__init__(speed)
        self.steady, self.utc = 1000.0, utc

    def now(self) -> Now:
        return Now(self.steady, self.utc)

    def pass_by(self, seconds: float) -> None:
        self.steady += seconds
        self.utc += seconds


@lru_cache(16)
def encoded(programme: Programme, first: int, count: int) -> bytes:
    return encode(programme.group(first + n) for n in range(count))


class Air:
    """A station on the air from `begin` on: its bytes by the true time, which steps of the machine's clock do not change."""

    def __init__(self, programme: Programme, begin: float, seconds: float):
        self.begin, self.first = begin, int(begin * GROUPS_PER_SECOND)
        sent = encoded(programme, self.first, int(seconds * GROUPS_PER_SECOND) + 2)
        self._data = numpy.frombuffer(sent, "u1").copy()
        # The first group may have begun before.
        self._shift = (begin - self.first / GROUPS_PER_SECOND) * RATE / 8

    def at(self, seconds: float) -> int:
        """The byte that is on the air, by seconds since the begin."""
        return int(seconds * RATE / 8 + self._shift)

    def noise(self, begin: float, end: float, seed: int = 1) -> None:
        first, after = self.at(begin), self.at(end)
        self._data[first:after] = numpy.random.default_rng(seed).integers(0, 256, after - first, "u1")

    def change(self, programme: Programme, begin: float, end: float) -> None:
        """Another programme from second to second."""
        first, after = (self.at(moment) // 13 * 13 for moment in (begin, end))
        self._data[first:after] = Air(programme, self.begin, end)._data[first:after]

    def bytes(self, first: int, after: int) -> bytes:
        return bytes(self._data[first:after].tobytes())


class SharedAir:
    """Stations that one receiver gives, as lines of `demod --stations`: by frequency in Hz. Each has a level of its own, which rises by
    `rise` dB per second, and its SNR by half of that."""

    def __init__(self, airs: Dict[int, Air], rise: float = 0.0):
        self._airs, self._rise = airs, rise
        self.at = next(iter(airs.values())).at

    def bytes(self, first: int, after: int) -> bytes:
        if first >= after:
            return b""
        found = []
        for number, (hertz, air) in enumerate(self._airs.items()):
            line = {
                "frequency": hertz,
                "seconds": 8 * (after - first) / RATE,
                "bits": air.bytes(first, after).hex(),
            }
            more = self._rise * 8 * first / RATE - number
            line.update(level_dbfs=-20 + more, snr_db=30 + (more - number) / 2)
            found.append(json.dumps(line, separators=(",", ":")))
        return "".join(f"{line}\n" for line in found).encode()


class Plan(NamedTuple):
    """What a run of a receiver does, in seconds of the run: it dies or hangs, is so slow to tell that bytes come late, gives them in
    bursts, drops some from a moment on, or is that many times too fast."""

    dies: Optional[float] = None
    hangs: Optional[float] = None
    late: float = 0.0
    burst: float = 0.0
    drops: Tuple[float, float] = (0.0, 0.0)
    pace: float = 1.0


class Simulated(Process):
    """A run of a receiver. Its bytes are kept, to be compared, but not those of a week."""

    keeps = True

    def __init__(self, air: Union[Air, SharedAir], times: SimulatedTimes, true_begin: float, plan: Plan):
        self._air, self._times, self._plan, self._zero = air, times, plan, true_begin
        self._began = times.steady
        self._at = air.at(times.steady - true_begin)
        self._killed = False
        self.given = b""
        # When bytes came, and from which one on to which one.
        self.reads: List[Tuple[float, int, int]] = []

    def _lasted(self) -> float:
        lasted = self._times.steady - self._began
        ends = [one for one in (self._plan.dies, self._plan.hangs) if one is not None]
        return min([lasted, *ends])

    def read(self) -> Optional[bytes]:
        if self._killed:
            return None
        lasted, begin, (at, seconds) = self._lasted(), self._began - self._zero, self._plan.drops
        lasted = lasted // self._plan.burst * self._plan.burst if self._plan.burst else lasted
        upto = self._air.at(begin + lasted * self._plan.pace - self._plan.late)
        last, again = (self._air.at(begin + moment) for moment in (at, at + seconds))
        kept = ((self._at, min(last, upto)), (max(self._at, again), upto)) if seconds else ((self._at, upto),)
        data, self._at = b"".join(self._air.bytes(*part) for part in kept), max(self._at, upto)
        if self.keeps:
            self.given += data
            self.reads += [(self._times.utc, *part) for part in kept if part[0] < part[1]]
        if not data and self._plan.dies is not None and self._lasted() >= self._plan.dies:
            return None
        return data

    def ended(self) -> Optional[str]:
        if self._killed:
            return "was ended by SIGTERM"
        if self._plan.dies is not None and self._times.steady - self._began >= self._plan.dies:
            return "ended with status 1: unplugged"
        return None

    def kill(self) -> None:
        self._killed = True

    terminate = kill

    def close(self) -> None:
        pass


class InTurn(WriterThread):
    """A writer without a thread: it tries again at each look."""

    def __init__(self, writer: Writer):
        super().__init__(writer)
        self.writer = writer

    @property
    def is_idle(self) -> bool:
        return self.writer.is_idle or (self.writer.work() and self.writer.is_idle)

    def give(self, batch: Batch) -> None:
        self.writer.give(batch)
        self.writer.work()


class Network:
    """A watch over simulated stations. The first word of a station's command is the name of its receiver."""

    def __init__(
        self,
        folder: Path,
        table: str,
        airs: Mapping[str, Union[Air, SharedAir]],
        plans: Optional[Dict[str, List[Plan]]] = None,
        decoder: NewDecoder = ByLibrary,
        speed: float = 1.0,
    ):
        self.folder, self.text, self.decoder = folder, table, decoder
        self.times, self.airs, self.plans = SimulatedTimes(speed=speed), airs, plans or {}
        self.zero = self.times.steady
        self.said: List[str] = []
        self.runs: List[Tuple[str, float]] = []
        self.given: List[Tuple[str, Simulated]] = []
        self.begin()

    def begin(self) -> None:
        """A watch begins, perhaps after one that was killed."""
        self.records = Records(str(self.folder / "watch.db"))
        table = table_of(self.text)
        self.recovered = recover(str(self.folder), [station.name for station in table.stations], self.records)
        self.records.end_runs(self.times.utc)
        self.writer = InTurn(Writer(str(self.folder), self.records, self._say))
        given = self.times, self._launch, self.decoder, self.writer, self.records, self._say
        self.watch = Watch(table, str(self.folder), *given)

    def _say(self, priority: str, text: str) -> None:
        self.said.append(f"{priority}: {text}")

    def _launch(self, words: Sequence[str], through: Sequence[str] = ()) -> Simulated:
        plans = self.plans.get(words[0], [])
        plan = plans.pop(0) if plans else Plan()
        self.runs.append((words[0], self.times.steady - self.zero))
        run = Simulated(self.airs[words[0]], self.times, self.zero, plan)
        self.given.append((words[0], run))
        return run

    def run(self, seconds: float, tick: float = 1.0, each: Callable[[], None] = lambda: None) -> None:
        for _ in range(round(seconds / tick)):
            self.times.pass_by(tick)
            each()
            self.watch.poll()
            self.watch.tick()

    def restart(self, seconds: float, kill: bool = False) -> None:
        """The watch is away for a while."""
        (self.kill if kill else self.end)()
        self.times.pass_by(seconds)
        self.begin()

    def kill(self) -> None:
        """What SIGKILL leaves: nothing is closed in order, and the part of a batch that was not written is gone."""
        self.writer.writer.close()
        self.records.close()

    def end(self) -> None:
        """SIGTERM."""
        self.watch.stop()
        while not self.watch.has_left:
            self.times.pass_by(0.5)
        assert self.writer.is_idle
        self.kill()

    # ---- what is there afterwards

    def reload(self, text: str) -> None:
        self.text = text
        self.watch.reload(table_of(text))

    def asked(self, query: str, *given: Any) -> List[Tuple[Any, ...]]:
        return asked(self.folder, query, *given)

    def texts(self, station: str) -> List[bytes]:
        """The hours' files, joined by session."""
        found: Dict[str, bytes] = {}
        for name, path in self.asked(
            f"SELECT name, path {HOURS} WHERE station = ? ORDER BY recordings.id, number", station
        ):
            whole = self.folder / path
            text = whole.read_bytes() if whole.exists() else b""
            if whole.suffix == ".zst":
                text = zstandard.ZstdDecompressor().decompress(text)
            found[name] = found.get(name, b"") + text
        return list(found.values())

    def hours(self, station: str) -> "List[Tuple[Hour, Rows]]":
        return hours_in(self.folder, station)


HOURS = "FROM hour_files JOIN sessions ON sessions.id = session JOIN recordings ON recordings.id = recording"


def asked(folder: Path, query: str, *given: Any) -> List[Tuple[Any, ...]]:
    """Rows of the database of a watch."""
    data = sqlite3.connect(folder / "watch.db", timeout=60)
    try:
        return data.execute(query, given).fetchall()
    finally:
        data.close()


def told_once(folder: Path) -> None:
    """The blocks of the minutes are those of the files, no hour is open, and each session names its PS at most once."""
    valid = sum(
        int(sum((rows[f"kind{n}"] == 2).sum() for n in (1, 2, 3, 4))) for _, rows in hours_in(folder, "Alpha")
    )
    assert asked(folder, "SELECT SUM(valid) FROM minute_rows") == [(valid,)]
    assert asked(folder, "SELECT COUNT(*) FROM hour_files WHERE is_open") == [(0,)]
    (names,) = asked(folder, "SELECT COUNT(*) FROM events WHERE item = 'ps'")
    assert names[0] <= asked(folder, "SELECT COUNT(*) FROM recordings")[0][0]


def hours_in(folder: Path, station: str) -> "List[Tuple[Hour, Rows]]":
    """The hours' files of a station in the order of their names."""
    found = []
    top = folder / "listings" / station
    for name in sorted(os.listdir(top)) if top.is_dir() else ():
        hour = hour_of(name)
        assert hour is not None, name
        found.append((hour, rows_of(str(top / name))[0]))
    return found


def numbers_in(hours: "List[Tuple[Hour, Rows]]") -> List[Tuple[int, float]]:
    """The numbers of groups that were received whole, and when each began by the name of its file."""
    found = []
    for hour, rows in hours:
        for row in rows[(rows["what"] == 2) & (rows["number"] == 6) & (rows["version"] == 1)]:
            if all(row[f"kind{block}"] == 2 for block in (1, 2, 3, 4)):
                number = int(row["info3"]) << 16 | int(row["info4"])
                found.append((number, hour.start + float(row["place"]) / hour.rate))
    return found


def decoders_of(pid: int) -> List[int]:
    """The processes `rds follow` of a watch."""
    children = Path(f"/proc/{pid}/task/{pid}/children").read_text().split()
    return [
        int(one)
        for one in children
        if Path(f"/proc/{one}/cmdline").read_bytes().split(b"\0")[1:2] == [b"follow"]
    ]


def stations(*lines: str) -> str:
    """A table of a station, from its lines, or of several, parted by '--'."""
    return "[[station]]\n" + "\n".join("[[station]]" if line == "--" else line for line in lines) + "\n"


def no_space(self: Any, path: str, data: memoryview) -> int:
    raise OSError(28, "No space left on device")
