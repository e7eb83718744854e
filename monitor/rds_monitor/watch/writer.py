"""Writes rows of hours, the database, pages and metrics to disk, in a thread of its own. If a write fails, all waits for the next try."""

import os
import sqlite3
import threading
import time
import traceback
from collections import deque
from contextlib import suppress
from typing import Callable, Deque, Dict, Iterable, List, NamedTuple, Optional, Sequence

from ..rows.items import cause
from .live import Append
from .records import AlarmChanged, PartOpened, Record, Records, StateSeen

RETRY = 1.0
MOST_RECORDS = 500000  # of records that wait for the database; the oldest are given up first

Say = Callable[[str, str], None]


class Batch(NamedTuple):
    """The results of some ticks. `after` is done once these are on disk: pages, and the removal of old files."""

    appends: Sequence[Append]
    records: Sequence[Record]
    after: Sequence[Callable[[Records], None]]


class HourWriter:
    """Appends to files below a folder. A write that was cut short goes on with the rest."""

    def __init__(self, folder: str):
        self._folder = folder
        self._open: Dict[str, int] = {}

    def append(self, path: str, data: memoryview) -> int:
        """Writes as much as there is room for, at least a byte, and says how much."""
        return os.write(self._file(path), data)

    def sync(self, path: str) -> None:
        os.fdatasync(self._file(path))

    def _file(self, path: str) -> int:
        if path in self._open and not os.fstat(self._open[path]).st_nlink:
            self.close(path)  # somebody deleted it: the rows to come are in a new one
        if path not in self._open:
            whole = os.path.join(self._folder, path)
            parent = os.path.dirname(whole)
            is_new = not os.path.exists(whole)
            os.makedirs(parent, exist_ok=True)
            self._open[path] = os.open(whole, os.O_WRONLY | os.O_APPEND | os.O_CREAT | os.O_CLOEXEC, 0o644)
            if is_new:
                # The names last through a power failure, too.
                sync_folder(parent)
                sync_folder(os.path.dirname(parent))
        return self._open[path]

    def close(self, path: str) -> None:
        if path in self._open:
            os.close(self._open.pop(path))

    def close_all(self) -> None:
        for path in list(self._open):
            self.close(path)


def sync_folder(path: str) -> None:
    file = os.open(path, os.O_RDONLY)
    try:
        os.fsync(file)
    finally:
        os.close(file)


class Writer:
    """Takes a batch at a time. `work` writes it, or what is left of it, and says whether all is written."""

    def __init__(self, folder: str, records: Records, say: Say):
        self._hours, self._records, self._say = HourWriter(folder), records, say
        self._rows: List[Append] = []
        self._written = 0
        self._unsynced: List[str] = []
        self._waiting: List[Record] = []
        self._after: List[Callable[[Records], None]] = []
        self.news: Deque[Record] = deque()  # what comes while rows wait
        self.first: Deque[Callable[[Records], None]] = deque()  # what is done before the next try
        self.fault: Optional[str] = None

    @property
    def is_idle(self) -> bool:
        """Whether it takes a batch: all rows before it are in their files."""
        return not self._rows and not self._unsynced

    def give(self, batch: Batch) -> None:
        self._rows += batch.appends
        self._waiting = newest(last_states([*self._waiting, *batch.records]))
        self._after += batch.after

    def work(self) -> bool:
        while self.first:
            self.first.popleft()(self._records)
        if self.news:
            while self.news:
                self._waiting.append(self.news.popleft())
            self._waiting = last_states(self._waiting)
        try:
            self._write_rows()
            self._write_records()
        except (OSError, sqlite3.Error) as error:
            text = cause(error) if isinstance(error, OSError) else f"the database: {error}"
            if self.fault is None:
                self._say("error", f"rows cannot be written: {text}; they wait")
            self.fault = text
            if not self.is_idle:
                self._write_news()
            return False
        if self.fault is not None:
            self._say("notice", "rows are written again")
            self.fault = None
        return True

    def _write_rows(self) -> None:
        while self._rows:
            row = self._rows[0]
            data = memoryview(row.data)[self._written :]
            if data:
                if row.path not in self._unsynced:
                    self._unsynced.append(row.path)
                self._written += self._hours.append(row.path, data)
                continue
            if row.closes:
                self._sync()
                self._hours.close(row.path)
            self._rows.pop(0)
            self._written = 0
        self._sync()

    def _write_news(self) -> None:
        """Alarms and states, which tell of no row, if at least the database can be written."""
        known = [(isinstance(record, (AlarmChanged, StateSeen)), record) for record in self._waiting]
        with suppress(sqlite3.Error):
            self._records.write([record for is_news, record in known if is_news])
            self._waiting = [record for is_news, record in known if not is_news]

    def _sync(self) -> None:
        while self._unsynced:
            self._hours.sync(self._unsynced[0])
            self._unsynced.pop(0)

    def _write_records(self) -> None:
        if self._waiting:
            self._records.write(self._waiting)
            self._waiting = []
        while self._after:
            self._after[0](self._records)
            self._after.pop(0)

    def close(self) -> None:
        self._hours.close_all()


def last_states(records: Sequence[Record]) -> List[Record]:
    """Without the states of stations that a later one replaces."""
    last = {record.station: record for record in records if isinstance(record, StateSeen)}
    return [one for one in records if not isinstance(one, StateSeen) or last[one.station] is one]


def newest(records: List[Record]) -> List[Record]:
    """At most MOST_RECORDS, and before them each part that opened, which later records name."""
    over = max(0, len(records) - MOST_RECORDS)
    return [record for record in records[:over] if isinstance(record, PartOpened)] + records[over:]


class WriterThread(threading.Thread):
    """A writer that never holds up who gives it batches."""

    def __init__(self, writer: Writer):
        super().__init__(name="writer", daemon=True)
        self._writer, self._wake = writer, threading.Condition()
        self._given: Optional[Batch] = None
        self._busy = self._ending = False
        self._until = 0.0
        self.crash: Optional[str] = None

    @property
    def is_idle(self) -> bool:
        with self._wake:
            return not self._busy and self._given is None

    @property
    def fault(self) -> Optional[str]:
        return self._writer.fault

    def hear(self, news: Iterable[Record]) -> None:
        """Alarms and states, while rows cannot be written."""
        self._writer.news.extend(news)

    def make_room(self, work: Callable[[Records], None]) -> None:
        """While rows cannot be written."""
        self._writer.first.append(work)

    def give(self, batch: Batch) -> None:
        with self._wake:
            self._given = batch
            self._wake.notify()

    def run(self) -> None:
        """A fault of this program ends the thread, and so the watch: nothing goes on unwritten."""
        try:
            self._run()
        except Exception:
            self.crash = traceback.format_exc()

    def _run(self) -> None:
        while True:
            with self._wake:
                while self._given is None and not self._ending:
                    if not self._wake.wait(RETRY) and self._writer.fault is not None:
                        break
                if self._given is None and self._ending:
                    if self._writer.fault is None or time.monotonic() >= self._until:
                        return
                    self._wake.wait(0.1)  # the database may be locked for a moment
                batch, self._given, self._busy = self._given, None, True
            if batch:
                self._writer.give(batch)
            self._work()
            with self._wake:
                self._busy = False

    def _work(self) -> None:
        """Until all rows are in their files. Records may wait longer, so that a database that is locked delays no row."""
        pause = threading.Event()
        while not self._writer.work() and not self._writer.is_idle and not self._ending:
            pause.wait(RETRY)

    def end(self, seconds: float) -> None:
        """Writes the rest, for at most so long."""
        with self._wake:
            self._until = time.monotonic() + seconds - RETRY
            self._ending = True
            self._wake.notify()
        self.join(seconds)
