"""The watch: all stations, tick by tick."""

import math
import os
import sqlite3
import subprocess
from collections import deque
from functools import partial
from typing import Callable, Deque, Dict, Iterable, List, Optional, Tuple

from ..db.standing import availability
from ..rows.clock import DAY
from ..rows.decoders import NewDecoder
from ..rows.extent import replace
from ..rows.items import cause
from .alarms import Alarm, Change, Trouble, words_for
from .compress import compress
from .live import Append
from .metrics import metrics_text
from .pages import write_pages
from .receiver import Keeper, Launch
from .records import WATCH, AlarmChanged, Record, Records, StateSeen, WatchBegan
from .retention import tidy
from .shared import AnyKeeper, SharedReceiver
from .station import Station
from .table import StationTable, Table
from .times import Now, SteadyUtc, Times
from .writer import Batch, Say, WriterThread, last_states

PAGES_EVERY, TIDY_EVERY = 60.0, 3600.0
MOST_WAITING = 8 << 20  # rows of a station that wait for the disk, in bytes; the oldest are given up first
HANGS = 5.0  # a batch takes milliseconds
MOST_HOOKS, HOOK_SECONDS = 4, 60.0  # commands of the user's for alarms: how many at a time, and for how long


class Hooks:
    """Runs commands of the user's, a few at a time, in their order."""

    def __init__(self, say: Say):
        self._say = say
        self._queue: List[Tuple[str, ...]] = []
        self._running: List[Tuple["subprocess.Popen[bytes]", float]] = []

    def add(self, words: Tuple[str, ...]) -> None:
        self._queue.append(words)

    def work(self, now: float) -> None:
        for process, began in self._running:
            if process.poll() is None and now - began > HOOK_SECONDS:
                process.kill()
        self._running = [hook for hook in self._running if hook[0].poll() is None]
        while self._queue and len(self._running) < MOST_HOOKS:
            words, null = self._queue.pop(0), subprocess.DEVNULL
            try:
                process = subprocess.Popen(words, stdin=null, stdout=null, start_new_session=True)
                self._running.append((process, now))
            except OSError as error:
                self._say("error", f"the command of an alarm, {words[0]}: {cause(error)}")


class Watch:
    """`poll` reads the receivers, and `tick` decodes and hands over to the writer. Neither waits."""

    def __init__(
        self,
        table: Table,
        folder: str,
        times: Times,
        launch: Launch,
        decoder: NewDecoder,
        writer: WriterThread,
        records: Records,
        say: Say,
    ):
        self._folder, self._times, self._writer, self._say = folder, times, writer, say
        self._launch, self._decoder = launch, decoder
        self._now = times.now()
        self._clock = SteadyUtc(self._now, times.speed)
        self._keep = table.keep
        self.stations: Dict[str, Station] = {}
        self._shared: Dict[str, SharedReceiver] = {}  # by the receiver's name
        self._leaving: List[Station] = []
        self._appends: List[Append] = []
        self._records: List[Record] = []
        self._closed: Deque[str] = deque()  # hours' files that are closed, to be compressed one at a time
        self._hooks = Hooks(say)
        self._busy_since: Optional[float] = None
        self._unwritten_since: Optional[float] = None
        self._disk_since = self._now.steady
        # On the monotonic clock.
        self._pages_at = self._tidy_at = 0.0
        self._disk = Alarm(0.0, 0.0)
        for station in table.stations:
            state, lasting = records.state(station.name), self._lasting(records, station.name)
            away = max(0.0, self.utc - state.get("utc", self.utc))
            self._add(station).resume(lasting, state.get("counted", {}), away)
        for text, seconds in self._lasting(records, WATCH).values():
            self._disk.text, self._disk_since = text, self._now.steady - seconds

    def _lasting(self, records: Records, station: str) -> Dict[str, Tuple[str, float]]:
        lasting = records.lasting(station).items()
        return {name: (text, max(0.0, self.utc - begin)) for name, (text, begin) in lasting}

    def _add(self, table: StationTable) -> Station:
        speed, now, receiver = self._times.speed, self._now.steady, table.receiver
        if receiver is None:
            keeper: AnyKeeper = Keeper(table.command, table.patience * speed, self._launch, now)
        else:
            shared = self._shared.get(receiver.name)
            if shared is None or shared.table != receiver:
                shared = self._shared[receiver.name] = SharedReceiver(receiver, speed, self._launch, now)
            keeper = shared.tap(table.hertz, now)
        station = Station(table, keeper, self._decoder, speed, now, self._say)
        station.records.append(WatchBegan(table.name, self.utc))
        self.stations[table.name] = station
        return station

    @property
    def utc(self) -> float:
        return self._clock.utc(self._now)

    def _look(self) -> Now:
        """The time. Sessions hear of a step of the machine's clock."""
        self._now = self._times.now()
        step = self._clock.step(self._now)
        if step:
            way = "forward" if step > 0 else "back"
            self._say("warning", f"the machine's clock was set {way} by {abs(step):.1f} s")
            for station in self.stations.values():
                station.step(step, self.utc)
        return self._now

    def poll(self) -> None:
        now = self._look()
        for station in self.stations.values():
            station.poll(now.steady, self.utc)

    def tick(self) -> None:
        now = self._look()
        for station in self.stations.values():
            station.tick(now.steady, self.utc)
            self._gather(station)
        self._leave(now.steady)
        self._hooks.work(now.steady)
        self._see_writer(now.steady)
        self._give()

    def _gather(self, station: Station) -> None:
        self._appends += station.appends
        if self._keep.compress:
            self._closed.extend(append.path for append in station.appends if append.closes)
        self._records += station.records
        for change in station.changes:
            self._tell(station.name, change, {station.table.alarm_command})
        station.appends, station.records, station.changes = [], [], []

    def _tell(self, name: str, change: Change, commands: Iterable[Tuple[str, ...]]) -> None:
        """To the journal, the pages, and the user's commands."""
        priority, way = ("warning", "begins") if change.begins else ("notice", "ends")
        self._say(priority, f"{name and name + ': '}alarm {change.alarm} {way}: {change.text}")
        for words in commands:
            if words:
                self._hooks.add(words_for(words, name, change))
        self._pages_at = 0.0

    def _judge_disk(self, steady: float) -> None:
        """One alarm for all stations, by the lowest of their limits."""
        tables = [station.table for station in self.stations.values()]
        limits = [table.alarms.disk for table in tables if table.alarms.disk is not None]
        since, self._disk.after = self._unwritten_since, min(limits, default=math.inf)
        text = (
            self._disk.text or "" if since is None else f"rows wait to be written for {steady - since:.0f} s"
        )
        begins = self._disk.judge(None if since is None else Trouble(since, text), steady)
        if begins is None:
            return
        if begins:
            self._disk_since = steady
        else:
            text += f"; it lasted {steady - self._disk_since:.0f} s"
        self._records.append(AlarmChanged(WATCH, "disk", begins, self.utc, text))
        self._tell(WATCH, Change("disk", begins, text), {table.alarm_command for table in tables})

    def _see_writer(self, steady: float) -> None:
        """Rows are not written if that fails, or if it takes long: a disk may hang, too."""
        busy = self._writer.fault is not None or not self._writer.is_idle
        self._busy_since = None if not busy else steady if self._busy_since is None else self._busy_since
        hangs = self._busy_since is not None and steady - self._busy_since > HANGS * self._times.speed
        self._unwritten_since = self._busy_since if hangs or self._writer.fault is not None else None
        self._judge_disk(steady)
        self._give_up_most()

    def _give_up_most(self) -> None:
        """Memory has an end: the oldest rows of a station that has too many are given up."""
        sizes: Dict[str, int] = {}
        for append in self._appends:
            folder = os.path.dirname(append.path)
            sizes[folder] = sizes.get(folder, 0) + len(append.data)
        for folder in [folder for folder, size in sizes.items() if size > MOST_WAITING]:
            mine = (one for one in self._appends if os.path.dirname(one.path) == folder and one.data)
            first = next(mine)
            text = f"{len(first.data)} bytes of rows are given up: they could not be written"
            self._say("error", f"{folder}: {text}")
            self._appends.remove(first)

    def _give(self) -> None:
        if self._writer.fault is not None and self._now.steady >= self._tidy_at:
            self._tidy_at = self._now.steady + TIDY_EVERY
            self._writer.make_room(partial(self._tidy, self.utc, False))
        if not self._writer.is_idle:
            if self._writer.fault is not None:
                seen = AlarmChanged, StateSeen
                self._writer.hear(one for one in self._records if isinstance(one, seen))
                self._records = [one for one in self._records if not isinstance(one, seen)]
            self._records = last_states(self._records)
            return
        after: List[Callable[[Records], None]] = []
        utc, steady = self.utc, self._now.steady
        is_well = self._writer.fault is None  # while the database cannot be written, they would only wait
        if is_well and steady >= self._pages_at:
            self._pages_at = steady + PAGES_EVERY
            states = {name: station.state(utc) for name, station in self.stations.items()}
            after.append(partial(self._write_pages, states, utc))
        if is_well and steady >= self._tidy_at:
            self._tidy_at = steady + TIDY_EVERY
            after.append(partial(self._tidy, utc, True))
        if is_well and self._closed:
            after.append(partial(self._compress, self._closed.popleft()))
        if self._appends or self._records or after:
            self._writer.give(Batch(self._appends, self._records, after))
            self._appends, self._records = [], []

    # ---- by the writer

    def _write_pages(self, states: Dict[str, Dict[str, object]], utc: float, records: Records) -> None:
        refresh = max(2, int(PAGES_EVERY / self._times.speed))
        data, lasting = records.database, {name: text for name, (text, _) in records.lasting(WATCH).items()}
        days = {name: availability(data, name, utc - DAY, utc) for name in states}
        write_pages(os.path.join(self._folder, "pages"), states, days, lasting, utc, data, refresh)
        replace(os.path.join(self._folder, "metrics.prom"), metrics_text(states, days, lasting, utc))

    def _tidy(self, utc: float, is_well: bool, records: Records) -> None:
        """While rows cannot be written no hour is compressed, since the database may not know yet that it is open."""
        try:
            removed, plain = tidy(self._folder, self._keep, utc, records)
        except (OSError, sqlite3.Error) as error:
            self._say("error", f"old hours cannot be removed: {error}")
            return
        if removed:
            self._say("info", f"{len(removed)} hours are removed, up to {removed[-1]}")
        if is_well and self._keep.compress and not self._closed:
            self._closed.extend(plain)

    def _compress(self, path: str, records: Records) -> None:
        """What fails is tried again once all is tidied."""
        try:
            compress(self._folder, path, records)
        except (OSError, sqlite3.Error) as error:
            self._say("error", f"{path} cannot be compressed: {error}")

    def reload(self, table: Table) -> None:
        """Stations whose receiver is the same go on."""
        before, self._keep = self.stations, table.keep
        self.stations = {}
        for station in table.stations:
            old = before.pop(station.name, None)
            if old and old.table.same_receiver(station):
                old.set_table(station)
                self.stations[station.name] = old
                continue
            if old:
                self._stop(old, "the table has changed")
            new = self._add(station)
            if old:
                new.alarms = old.alarms
                new.alarms.set_table(station)
        for old in before.values():
            old.end_alarms(self.utc)
            self._stop(old, "it is no longer in the table")
        names = {receiver.name for receiver in table.receivers}
        self._shared = {name: shared for name, shared in self._shared.items() if name in names}
        self._pages_at = 0.0

    def _stop(self, station: Station, reason: str) -> None:
        station.stop(self._now.steady, self.utc, reason)
        self._gather(station)
        self._leaving.append(station)

    def _leave(self, steady: float) -> None:
        """Receivers that were asked to end."""
        for station in self._leaving:
            station.keeper.read(steady)
        self._leaving = [station for station in self._leaving if station.keeper.is_running]

    def stop(self) -> None:
        """All sessions end. Their receivers are asked to."""
        self.poll()
        for station in self.stations.values():
            self._stop(station, "the watch ended")
        self._pages_at = 0.0
        self._give()

    @property
    def has_left(self) -> bool:
        """Whether all receivers have ended, and all is given to the writer."""
        self._now = self._times.now()
        self._leave(self._now.steady)
        self._give()
        return not self._leaving and not self._appends and not self._records

    def kill(self) -> None:
        """No receiver is left, whatever happened."""
        for station in [*self._leaving, *self.stations.values()]:
            station.keeper.kill()
