"""Parts of the watch by themselves: the last bytes of a receiver, the last batch of a writer, and commands in their order."""

from __future__ import annotations

import fcntl
import gc
import os
import re
import socket
import sqlite3
import time
from collections import deque
from pathlib import Path
from types import BuiltinFunctionType, FunctionType, ModuleType, SimpleNamespace
from typing import Any, List, Optional, Sequence, cast
from unittest import mock

import pytest

from conftest import rds
from load import Endless
from made import run
from network import START, Air, Plan, Simulated
from network import asked as asked_in
from rds_monitor.content.decoder import Event
from rds_monitor.db.parts import Contents, MinuteRow, Part, Told
from rds_monitor.db.standing import Availability
from rds_monitor.measures.errors import Interval
from rds_monitor.rows.clock import Clock
from rds_monitor.rows.items import Fault
from rds_monitor.signal.receiver import Strength
from rds_monitor.watch import asked, check, journal, loop, records, service, writer
from rds_monitor.watch.live import Append, LiveSession
from rds_monitor.watch.loop import Hooks
from rds_monitor.watch.receiver import Keeper, Process
from rds_monitor.watch.records import Records, RunBegan
from rds_monitor.watch.station import Station
from rds_monitor.watch.table import table_of
from rds_monitor.watch.times import Timing
from rds_monitor.watch.verdict import Limits, Verdict
from rds_monitor.watch.writer import Batch, Writer, WriterThread
from test_watch_network import ALPHA, TABLE, network


class Leaving(Process):
    """A command that writes its last bytes between a read and its end."""

    def __init__(self) -> None:
        self._left: List[Optional[bytes]] = [b"first", b"", b"last", b"", b""]

    def read(self) -> Optional[bytes]:
        return self._left.pop(0)

    def ended(self) -> Optional[str]:
        return "ended with status 0" if len(self._left) < 4 else None

    def kill(self) -> None:
        ...

    close = kill


def test_the_last_bytes_of_a_receiver() -> None:
    keeper = Keeper(["it"], 10.0, lambda words, through: Leaving(), 0.0)
    assert [keeper.read(now) for now in (0.0, 0.1, 0.2, 0.3)] == [b"", b"first", b"last", None]
    assert keeper.reason == "ended with status 0" and not keeper.is_running


def test_a_pipe_of_a_megabyte() -> None:
    process = Process(["sleep", "60"])
    get_pipe_size = 1032  # which Python has from 3.10 on
    assert fcntl.fcntl(process._out.fileno(), get_pipe_size) == 1 << 20
    process.kill()
    process.close()


def test_a_receiver_that_is_stopped_for_good() -> None:
    """Its reason is the one that was given, not how the command ended."""
    process = mock.Mock(**{"read.return_value": b"", "ended.return_value": None})
    keeper = Keeper(["receiver"], 10.0, lambda words, through: process, 0.0)
    keeper.read(0.0)
    keeper.stop(1.0, "the watch ended")
    process.ended.return_value = "was ended by SIGTERM"
    assert [keeper.read(now) for now in (1.5, 99.0)] == [None, b""]
    assert (keeper.reason, keeper.starts, keeper.is_running) == ("the watch ended", 1, False)


class Brief(Process):
    """A command that writes what is left, and ends when it is told to."""

    def __init__(self, *left: bytes) -> None:
        self.has_ended, self._left = False, [*left]

    def read(self) -> Optional[bytes]:
        return self._left.pop() if self._left else b""

    def ended(self) -> Optional[str]:
        return "ended" if self.has_ended else None

    def kill(self) -> None:
        ...

    close = kill


class Idle(Process):
    """A command that goes on without a byte, and notes what it is sent."""

    def __init__(self, is_open: bool) -> None:
        self._is_open, self.sent = is_open, list[str]()

    def read(self) -> Optional[bytes]:
        return b"" if self._is_open else None

    def ended(self) -> Optional[str]:
        return None

    def terminate(self) -> None:
        self.sent.append("SIGTERM")

    def kill(self) -> None:
        self.sent.append("SIGKILL")


@pytest.mark.parametrize(
    "is_open, patience, allowed, reason",
    [
        (True, 10.5, 10.5, "gave no byte for 10.5 s"),
        (False, 10.5, 2, "closed its output"),
        (False, 1.5, 1.5, "closed its output"),
    ],
)
def test_when_a_command_is_ended(is_open: bool, patience: float, allowed: float, reason: str) -> None:
    """Counted from its start. It has two seconds to end by itself."""
    it = Idle(is_open)
    keeper = Keeper(["it"], patience, lambda words, through: it, 0.0)
    keeper.read(100.0)
    for moment, sent in (
        (0.0, []),
        (0.125, ["SIGTERM"]),
        (2.125, ["SIGTERM"]),
        (2.25, ["SIGTERM", "SIGKILL"]),
    ):
        assert keeper.read(100 + allowed + moment) == b""
        assert (it.sent, keeper.reason) == (sent, reason if sent else "")


@pytest.mark.parametrize("lasted, left, pause", [(59.9, [b"x"], 60.0), (60.0, [b"x"], 1.0), (60.0, [], 60.0)])
def test_pauses_grow(lasted: float, left: List[bytes], pause: float) -> None:
    """After a run of a minute in which a byte came, if only at its begin, the next one is a second again."""
    runs: List[Brief] = []

    def launch(words: Sequence[str], through: Sequence[str]) -> Brief:
        runs.append(Brief(*(left if len(runs) == 8 else [b"x"])))
        return runs[-1]

    keeper, begin = Keeper(["it"], 1e9, launch, 0.0), 0.0
    for number, wanted in enumerate([1, 2, 4, 8, 16, 32, 60, 60, pause], 1):
        assert [keeper.read(begin), keeper.read(begin) == b"x"] == [b"", number < 9 or left != []]
        runs[-1].has_ended = True
        end = begin + (lasted if number == 9 else 0.5)
        assert keeper.read(end) is None
        begin = end + wanted
        assert keeper.read(begin - 0.1) == b"" and len(runs) == number
    keeper.read(begin)
    assert len(runs) == 10


def test_the_last_batch_of_a_writer(tmp_path: Path) -> None:
    """It was given before the end, and is written."""
    records = Records(str(tmp_path / "watch.db"))
    thread = WriterThread(Writer(str(tmp_path), records, lambda priority, text: None))
    thread.give(Batch([Append("listings/Alpha/it.csv", b"row\n", closes=True)], [], []))
    thread._ending = True
    thread.start()
    thread.end(10.0)
    path = tmp_path / "listings" / "Alpha" / "it.csv"
    assert path.read_bytes() == b"row\n" and not thread.is_alive()
    assert path.stat().st_mode & 0o133 == 0
    records.close()


def test_what_a_writer_synchronises(tmp_path: Path, monkeypatch: pytest.MonkeyPatch) -> None:
    """The names of a new file and its folder, and the rows: before, it takes no more. The last row closes the file, as the end does."""
    records, folders = Records(str(tmp_path / "watch.db")), list[str]()
    one, top = Writer(str(tmp_path), records, lambda priority, text: None), str(tmp_path / "listings")
    opened = lambda: [fd for fd in Path("/proc/self/fd").iterdir() if str(fd.resolve()).startswith(top)]
    monkeypatch.setattr(writer.os, "fsync", lambda file: folders.append(os.readlink(f"/proc/self/fd/{file}")))
    monkeypatch.setattr(writer.os, "fdatasync", mock.Mock(side_effect=[OSError(5, "it fails"), *[None] * 3]))
    one.give(Batch([Append("listings/Alpha/it.csv", b"row\n")], [], []))
    found = [(one.work(), one.is_idle, one.fault) for _ in range(2)]
    assert found == [(False, False, "it fails"), (True, True, None)]
    assert folders == [f"{top}/Alpha", top] and len(one._hours._open) == 1
    one.give(Batch([Append("listings/Alpha/it.csv", b"row\n", closes=True)], [], []))
    assert one.work() and opened() == []
    one.give(Batch([Append("listings/Alpha/it.csv", b"row\n")], [], []))
    assert one.work() and len(folders) == 2 and len(opened()) == 1
    one.close()
    assert opened() == []
    records.close()


def test_a_write_is_tried_again_each_second(monkeypatch: pytest.MonkeyPatch) -> None:
    waits, ends = list[float](), [False, False, True]
    thread = WriterThread(cast(Any, SimpleNamespace(work=lambda: ends.pop(0), is_idle=False)))
    monkeypatch.setattr(writer.threading, "Event", lambda: SimpleNamespace(wait=waits.append))
    thread._work()
    assert waits == [1.0, 1.0] and ends == []


@pytest.mark.parametrize(
    "quiet, runs, told",
    [
        (60.0, None, "100.00 % of the blocks of the last minute valid"),
        (60.1, None, "rds-monitor watch does not run"),
        (60.1, 60.0, "rds-monitor watch has just begun"),
        (60.1, 60.1, "disk: nothing was written for 60 s"),
    ],
)
def test_a_minute_without_news(
    quiet: float, runs: Optional[float], told: str, monkeypatch: pytest.MonkeyPatch
) -> None:
    """By how long ago the station was looked at, and for how long a watch has run, if it does."""
    monkeypatch.setattr(asked, "runs_for", lambda folder: runs)
    try:
        said = judged(monkeypatch, quiet).said
    except Fault as fault:
        said = [str(fault)]
    assert told in said[0]


def judged(monkeypatch: pytest.MonkeyPatch, quiet: float, disk: str = "", **changes: Any) -> Verdict:
    """By a good state, with changes, of `quiet` seconds ago."""
    minute = {"sent": 2740, "valid": 2740, "corrected": 0}
    state: Any = {"utc": 1000.0, "session_utc": 1.0, "last_group_utc": 999.0, "held": {}, "alarms": {}}
    known = (1000.0, {**state, "minute": minute, **changes}, disk, Availability(1, 2, 3, 4))
    monkeypatch.setattr(asked, "known_of", lambda path, name: known)
    monkeypatch.setattr(asked.time, "time", lambda: 1000.0 + quiet)
    return asked.judge_station(["it.db"], "A", Limits(90, 50, 10, 60), None, [])


@pytest.mark.parametrize(
    "changes, told, status",
    [
        ({}, [], 0),
        ({"session_utc": None, "reason": "it ended"}, ["no session: it ended"], 0),
        (
            {"session_utc": None, "reason": "", "alarms": {"ta": "on", "pi": "D319"}},
            ["pi: D319", "ta: on"],
            2,
        ),
        ({"alarms": {"ta": "on"}}, ["ta: on"], 1),
    ],
)
def test_why_a_station_is_not_good(
    changes: Any, told: List[str], status: int, monkeypatch: pytest.MonkeyPatch
) -> None:
    """First come its alarms by name, or without one the reason; and last the seconds of a day."""
    verdict = judged(monkeypatch, 0.0, **changes)
    assert verdict.said[:-2] == told and verdict.status == status
    assert verdict.data[-4:] == ["received=1s", "noise=2s", "down=3s", "unknown=4s"]


def test_a_group_that_ended_after_the_look_has_no_age() -> None:
    state = {"utc": 1000.0, "last_group_utc": 1000.4, "held": {"ps": "  "}, "minute": None}
    seen = asked.seen_of(state)
    assert (seen.age, seen.valid, seen.names) == (0.0, None, [])


def test_a_full_disk_is_all_that_is_told(monkeypatch: pytest.MonkeyPatch) -> None:
    verdict = judged(monkeypatch, 100.0, disk="no room")
    assert (verdict.said, verdict.data, verdict.status) == (["disk: no room"], [], 1)


def test_how_a_database_is_opened(monkeypatch: pytest.MonkeyPatch) -> None:
    """Only to be read, whatever its name is. It may be locked for five seconds."""
    connect = mock.Mock(side_effect=sqlite3.OperationalError("database is locked"))
    monkeypatch.setattr(asked.sqlite3, "connect", connect)
    with pytest.raises(Fault, match=r"^/a\?b.db: database is locked$"):
        asked.known_of("/a?b.db", "Alpha")
    assert connect.call_args == mock.call("file:/a%3Fb.db?mode=ro", uri=True, timeout=5)


@pytest.mark.parametrize(
    "error, told",
    [
        (OSError(5, "Input/output error", "it.csv"), "it.csv: Input/output error"),
        (OSError(5, "Input/output error"), "reading: Input/output error"),
        (OSError("cut"), "reading: cut"),
        (ValueError("bad"), "ValueError: bad"),
    ],
)
def test_a_fault_while_a_file_is_judged(error: Exception, told: str, monkeypatch: pytest.MonkeyPatch) -> None:
    monkeypatch.setattr(check, "_run", mock.Mock(side_effect=error))
    done = run("check", "it.csv")
    assert (done.status, done.out) == (3, f"RDS UNKNOWN - {told}\n")


def test_limits_that_are_the_same() -> None:
    """They do not contradict each other: there is no warning then."""
    given = SimpleNamespace(w=80.0, c=80.0, W=20.0, C=20.0)
    assert check.limits_of(cast(Any, given)) == Limits(80, 80, 20, 20)


@pytest.mark.parametrize(
    "words, is_listing, most", [((), False, 297), (("--soft",), False, 2376), ((), True, 22401)]
)
def test_how_much_of_a_growing_file_is_read(
    words: Sequence[str],
    is_listing: bool,
    most: int,
    station_listing: bytes,
    tmp_path: Path,
    monkeypatch: pytest.MonkeyPatch,
) -> None:
    """Of two seconds: 2375 bits, or symbols, or a listing's rows at most, and a byte more."""
    ends = mock.Mock(side_effect=lambda parts, most, cut_line: parts)
    monkeypatch.setattr(check, "_ends", ends)
    (tmp_path / "it").write_bytes(station_listing if is_listing else bytes(9000))
    run("check", "--last", 2, *words, tmp_path / "it")
    assert ends.call_args[0][1:] == (most, is_listing)


def test_commands_in_their_order(tmp_path: Path, monkeypatch: pytest.MonkeyPatch) -> None:
    monkeypatch.setattr(loop, "MOST_HOOKS", 1)
    hooks, path = Hooks(lambda priority, text: None), tmp_path / "said"
    for word in "123":
        hooks.add(("sh", "-c", 'echo "$1" >> "$2"', "-", word, str(path)))
    end = time.monotonic() + 30
    while time.monotonic() < end and not (path.exists() and path.read_text().count("\n") == 3):
        hooks.work(0.0)
        time.sleep(0.01)
    assert path.read_text() == "1\n2\n3\n"


def test_commands_that_last() -> None:
    """Four at a time, each for a minute at most."""
    hooks = Hooks(lambda priority, text: None)
    for _ in range(5):
        hooks.add(("sleep", "600"))
    hooks.work(100.0)
    first = [process for process, _ in hooks._running]
    hooks.work(160.0)
    time.sleep(0.1)  # if they were killed, they have ended
    assert len(first) == 4 and [process.poll() for process in first] == [None] * 4
    hooks.work(160.1)
    assert [process.wait(30) for process in first] == [-9] * 4
    hooks.work(160.1)
    ((last, began),) = hooks._running
    hooks.work(began + 60.1)
    assert last.wait(30) == -9


def test_bytes_that_came_just_before_a_stop(tmp_path: Path) -> None:
    """They are read once more. Steps of the machine's clock are told with their direction."""
    air = Air(ALPHA, START, 40)
    one = network(tmp_path, air)
    for seconds in (0.0, 100.0, -50.0):
        one.times.utc += seconds
        one.run(10)
    one.times.pass_by(0.9)
    one.end()
    ((_, run),) = one.given
    assert len(run.given) == air.at(30.9) - air.at(1.0)
    # All of them are decoded: a session may lack its first group.
    groups = sum(text.count(b"\ngroup,") for text in one.texts("Alpha"))
    assert groups > 8 * len(run.given) / 104 - 3
    for path, size in one.asked("SELECT path, bytes FROM hour_files"):
        assert (tmp_path / path).stat().st_size == size
    steps = ("forward by 100.0 s", "back by 50.0 s")
    told = [text for text in one.said if "clock was set" in text]
    assert told == [f"warning: the machine's clock was set {step}" for step in steps]


def test_the_last_minute_of_a_station(tmp_path: Path) -> None:
    """Pages and plugins are told what the database has of it."""
    air = Air(ALPHA, START, 100)
    air._data[4000:12000:41] ^= 0x10
    one = network(tmp_path, air)
    one.run(90)
    state = one.watch.stations["Alpha"].state(0.0)["minute"]
    query = "SELECT sent, valid, corrected, lost FROM minute_rows ORDER BY session DESC, minute DESC LIMIT 1"
    ((sent, valid, corrected, lost),) = one.asked(query)
    assert (state["sent"], state["valid"], state["corrected"]) == (sent, valid, corrected)
    assert 0 < corrected != lost
    # A page tells the seconds of the day before it.
    told = re.search(
        r'rds_day_seconds{station="Alpha",state="received"} (\d+)', (tmp_path / "metrics.prom").read_text()
    )
    assert told and int(told[1]) > 30
    one.end()


@pytest.mark.parametrize("count, left", [(2, "a- b4 a3 b3 b3"), (3, "a- a3 b3 b3 b3")])
def test_the_oldest_rows_of_a_station_are_given_up(
    count: int, left: str, monkeypatch: pytest.MonkeyPatch
) -> None:
    """Those of one that has more than ten bytes of them, in any hour. That an hour ends is told nevertheless."""
    monkeypatch.setattr(loop, "MOST_WAITING", 10)
    appends = [
        Append("a/1", b"", True),
        Append("a/1", b"8 bytes:"),
        Append("b/1", b"four"),
        Append("a/2", b"..3"),
    ]
    said: List[str] = []
    one = SimpleNamespace(
        _appends=[*appends, *[Append("b/2", b"..3")] * count], _say=lambda priority, text: said.append(text)
    )
    loop.Watch._give_up_most(cast(Any, one))
    assert " ".join(f"{path[0]}{len(data) or '-'}" for path, data, _ in one._appends) == left
    lost = "bytes of rows are given up: they could not be written"
    assert said == [f"a: 8 {lost}", f"b: 4 {lost}"][: count - 1]


def test_how_long_rows_waited(tmp_path: Path) -> None:
    """The alarm of the watch before ends at once. Another one counts from when it begins."""
    store = Records(str(tmp_path / "watch.db"))
    store.write([records.AlarmChanged("", "disk", True, START - 60, "no room")])
    store.close()
    one = network(tmp_path, Air(ALPHA, START, 9), table=TABLE + "[station.alarms]\ndisk = 5\n")
    for steady, since in ((1001, None), (1104.9, 1100), (1105, 1100), (1112, None)):
        one.watch._unwritten_since = since
        one.watch._judge_disk(steady)
    wait = "rows wait to be written for 5 s"
    assert one.said == [
        "notice: alarm disk ends: no room; it lasted 61 s",
        f"warning: alarm disk begins: {wait}",
        f"notice: alarm disk ends: {wait}; it lasted 7 s",
    ]
    one.end()


def station_of(keeper: Any, *lines: str) -> Station:
    (one,) = table_of("\n".join(['[[station]]\nname = "Alpha"\ncommand = ["it"]', *lines])).stations
    return Station(one, keeper, mock.Mock(), 1.0, 100.0, mock.Mock())


def test_a_table_with_another_patience() -> None:
    one, table = station_of(mock.Mock()), station_of(None, "patience = 7").table
    one._speed = 2.0
    one.set_table(table)
    assert one.table is table and one.keeper.patience == 14


def test_each_run_is_demodulated_by_itself(monkeypatch: pytest.MonkeyPatch) -> None:
    made = mock.Mock(return_value=mock.Mock(**{"take.return_value": b"", "finish.return_value": b""}))
    monkeypatch.setattr("rds_monitor.watch.station.bit_source", made)
    known = {"reason": "it ended", "is_stopping": False, "read.side_effect": [b"x", b"x", None, b"x"]}
    one = station_of(mock.Mock(**known), 'form = "mpx"', 'raw = "u8"', "rate = 192000")
    for number, count in enumerate([1, 1, 1, 2]):
        one.poll(100.0 + number, 100.0 + number)
        assert made.call_count == count


@pytest.mark.parametrize("quiet", [5.0, 10.0, 10.1])
def test_the_age_of_a_valid_block_outlasts_the_watch(quiet: float) -> None:
    """However long no byte came, of which a burst may bring those of ten seconds."""
    one = station_of(mock.Mock(last_byte=100.0, patience=10.0))
    one.resume({}, {"quiet": quiet, "age": 20.0}, 0.0)
    assert (one.keeper.last_byte, one._age(100.0)) == (100.0 - quiet, pytest.approx(20.0))


@pytest.mark.parametrize("utc, names", [(110.0, ["A", "B", "C"]), (110.1, ["B", "C"]), (500.0, ["C"])])
def test_the_names_of_a_minute(utc: float, names: List[str]) -> None:
    """The one that held when the minute began is one of them."""
    one = station_of(mock.Mock(reason=""))
    one._session = mock.MagicMock()
    changes = [
        Event(int(at * 1187.5), 1, "ps", name, None, f" {name}")
        for at, name in ((0, "A"), (50, "B"), (100, "C"))
    ]
    one._take(Told([], [], [], changes, []), Timing(0.0))
    assert one.state(utc)["names"] == names


def test_news_come_each_ten_seconds() -> None:
    """Of a session, twice as fast, and of a station."""
    session, one, found = LiveSession("Alpha", 2.0, mock.Mock(place=0), 0.0), station_of(mock.MagicMock()), []
    one.alarms, one.state = mock.MagicMock(), mock.Mock()  # type: ignore[method-assign]
    one._age = mock.Mock()  # type: ignore[method-assign]
    session.part, session._timing = Part(Clock(0.0), 0, session.contents), Timing(0.0)
    session._key, session._size = records.PartKey("Alpha 1", 0), 0
    for seconds in (0.0, 9.9, 10.0):
        session._tell(100 + 2 * seconds)
        one.tick(100 + seconds, 0.0)
        found.append((len(session.records), len(one.records)))
    assert found == [(1, 1), (1, 1), (2, 2)]


@pytest.mark.parametrize("ahead, is_ahead", [(5.0, False), (5.1, True)])
def test_bits_may_be_five_seconds_ahead(ahead: float, is_ahead: bool) -> None:
    one = station_of(mock.Mock())
    one._session = mock.Mock(**{"arrivals.ahead": ahead})
    assert one._is_ahead(0, 0.0) == is_ahead


def test_what_a_station_counts() -> None:
    """All blocks, but per cent of whole minutes only; and the last minute, and the last clock time that is known."""
    one = station_of(mock.Mock(reason=""))
    one.alarms = mock.MagicMock()
    minutes = [
        MinuteRow(0, Interval(0, 71250, 100, 70, 15, 10, 5), {}, {}, -0.5, 0),
        MinuteRow(1, Interval(71250, 142499, 99, 60, 20, 12, 7), {}, {}, None, 0),
    ]
    one._take(Told(minutes, [], [], [], []), Timing(1000.0))
    state = one.state(2000.0)
    assert one.alarms.take.call_args[0][:2] == ([], [30.0])
    assert state["blocks"] == {"valid": 130, "corrected": 35, "lost": 22, "missing": 12}
    assert state["minute"] == {"utc": 1060.0, "sent": 99, "valid": 60, "corrected": 20}
    assert state["clock_s"] == -0.5


def test_the_strength_of_the_last_two_minutes() -> None:
    decoder = mock.Mock(place=0)
    session, found = LiveSession("Alpha", 1.0, decoder, 0.0), []
    for decoder.place, level in (
        (0, -10.0),
        (71249, -10.0),
        (71250, -20.0),
        (150000, -30.0),
        (285000, -40.0),
    ):
        session.take(b"", Strength(level, None))
        found.append(session.strength())
    assert [*session._strengths] == [2, 4]
    # Means by power, such as of 0.1 twice and 0.01.
    assert found == [Strength(level, None) for level in (-10.0, -10.0, -11.5, -22.6, -32.6)]


def test_what_came_before_a_step_of_the_clock_tells_no_pace() -> None:
    session = LiveSession("Alpha", 1.0, mock.Mock(place=0), 0.0)
    session.arrivals.reads.append((1.0, 1188))
    session.jump(5400.0, 5402.0)
    assert not session.arrivals.reads


def entries(root: Any, outside: Any) -> int:
    """How many entries all containers have that can be reached, but not those of the test."""
    seen, left, count = {id(outside)}, [root], 0
    while left:
        one = left.pop()
        if id(one) not in seen and not isinstance(one, (type, ModuleType, FunctionType, BuiltinFunctionType)):
            seen.add(id(one))
            count += len(one) if isinstance(one, (list, deque, dict, set)) else 0
            left += gc.get_referents(one)
    return count


@pytest.mark.parametrize("grows", [False, True])
def test_nothing_grows(tmp_path: Path, grows: bool, monkeypatch: pytest.MonkeyPatch) -> None:
    """Once two hours have passed, with sessions of 25 minutes, RDS for a quarter of each hour, and rows that are kept for one. A list that
    grew by an entry per tick is seen."""
    keep = "[keep]\nlistings_days = 0.04\ndatabase_days = 0.04\ncompress = true\n"
    monkeypatch.setattr(Simulated, "keeps", False)
    air: Any = Endless()
    one = network(tmp_path, air, *[Plan(dies=1500.0)] * 20, table=keep + TABLE)
    one.watch.grown = []  # type: ignore[attr-defined]
    grow = one.watch.grown.append if grows else lambda entry: None  # type: ignore[attr-defined]
    most = []
    for _ in range(24):
        one.run(600, 50, lambda: grow(0))
        most.append(entries(one.watch, one))
    assert 200 < max(most) < 2000 and (max(most[12:]) > max(most[:12]) + 100) == grows
    one.end()


def test_the_pace_of_a_watch(monkeypatch: pytest.MonkeyPatch) -> None:
    """It polls ten times a second, here each eighth, and ticks each half; of a tick that takes long no other one is made up for. The table
    is read once for a signal, and systemd hears of that. At the end it waits for receivers and for the disk, five seconds each.
    """
    now, slept, polls, ticks = [100.0], set[float](), list[float](), list[float]()
    heard, said = list[str](), list[Any]()
    one: Any = object.__new__(service.Service)

    def tick() -> None:
        ticks.append(now[0])
        now[0] += 2 if now[0] == 101.5 else 0

    def sleep(seconds: float) -> None:
        slept.add(seconds)
        now[0] += 0.125
        one._ending = now[0] >= 104

    clock = dict(sleep=sleep, monotonic=lambda: now[0], monotonic_ns=lambda: int(1e9 * now[0]) + 999)
    monkeypatch.setattr(service, "time", SimpleNamespace(**clock))
    monkeypatch.setattr(service, "notify", heard.append)
    monkeypatch.setattr(service, "say", lambda *words: said.append(words))
    one._ending, one._rereading, one._path = False, True, "/none"
    one._thread = SimpleNamespace(crash=None)
    one._watch = SimpleNamespace(poll=lambda: polls.append(now[0]), tick=tick, reload=None)
    one._go_on()
    assert ticks == [100.125, 100.5, 101.0, 101.5, 103.625, 104.0] and slept == {0.1}
    assert polls == [100 + n / 8 for n in (*range(1, 13), *range(29, 33))]
    assert heard == ["RELOADING=1\nMONOTONIC_USEC=100125000", "READY=1"] + len(ticks) * ["WATCHDOG=1"]
    one._watch, one._thread = mock.Mock(has_left=False), mock.Mock(fault="no room")
    one._writer, one._records, one._lock = mock.Mock(), mock.Mock(), os.open(os.devnull, os.O_RDONLY)
    assert (one._leave(), now, slept) == (1, [109.0], {0.1, 0.05})
    assert one._thread.end.call_args == mock.call(5.0)
    assert one._watch.stop.called and one._watch.kill.called and one._writer.close.called
    assert one._records.close.called and not os.path.exists(f"/proc/self/fd/{one._lock}")
    holds = "the old table holds: '/none' cannot be read: No such file or directory"
    assert said == [("error", holds), ("error", "rows were not written: no room")]


def test_how_a_watch_begins(tmp_path: Path, monkeypatch: pytest.MonkeyPatch, capsys: Any) -> None:
    """In a folder that is new, or that of a watch that was killed: its hours are whole again, its runs end now, and the lock tells since
    when this one runs. One that is fast tells its receivers."""
    monkeypatch.setenv("RDS_MONITOR_FAST", "none")
    folder, begin = tmp_path / "new" / "folder", int(time.time())
    for speed in (1.0, 8.0):
        decoding = service.Decoding(None, mock.Mock(), "it", table_of(TABLE))
        one = service.Service("it.toml", decoding, str(folder), speed)
        now, lock = time.time() + 1, os.stat(folder / "watch.lock")
        told, runs = os.environ["RDS_MONITOR_FAST"], asked_in(folder, "SELECT end_at, reason FROM run_rows")
        assert begin <= lock.st_mtime <= now and os.get_inheritable(one._lock) is False
        opened = records.PartOpened(records.PartKey("Alpha 1", 0), "Alpha", Timing(5.0), 0, "listings/it.csv")
        one._records.write([RunBegan("Alpha", 5.0), opened])
        os.utime(folder / "watch.lock", (1, 1))
        os.close(one._lock)
        one._records.close()
        if speed == 1:
            assert (told, runs, capsys.readouterr().err) == ("none", [], "")
    assert "listings/it.csv: the last watch was killed; the hour is whole again\n" in capsys.readouterr().err
    ((end, reason),), (since, times) = runs, map(float, told.split())
    assert begin <= since <= now and times == 8 and reason == "the watch was killed"
    assert begin <= end <= since + 8 * (now - since)


def test_a_writer_that_crashed(monkeypatch: pytest.MonkeyPatch) -> None:
    """The watch ends by that, and none of its receivers is left. Nobody who reads its lines may end it."""
    one: Any = object.__new__(service.Service)
    monkeypatch.setattr(service.signal, "signal", heard := mock.Mock())
    one._ending, one._rereading = False, False
    one._watch = mock.Mock(stations={}, **{"poll.side_effect": [None] * 99})
    one._decoding = mock.Mock()
    one._thread = WriterThread(cast(Any, mock.Mock(**{"work.side_effect": ValueError("a fault")})))
    one._thread.give(Batch([], [], []))
    with pytest.raises(Fault, match="(?s)^nothing can be written any more: Traceback.*ValueError: a fault"):
        one.run()
    assert one._watch.kill.called
    assert heard.call_args == mock.call(service.signal.SIGPIPE, service.signal.SIG_IGN)


def test_records_that_are_too_many(tmp_path: Path, monkeypatch: pytest.MonkeyPatch) -> None:
    """The database cannot be written while a session begins: the oldest are given up, but its part is known, and no row of its file
    is lost."""
    assert len(writer.newest(500_001 * [RunBegan("Alpha", 0.0)])) == 500_000
    one = network(tmp_path, Air(ALPHA, START, 100))
    with monkeypatch.context() as patch:
        patch.setattr(writer, "MOST_RECORDS", 3)
        patch.setattr(records.Records, "write", locked)
        one.run(20)
    one.run(10)
    one.end()
    (text,) = one.texts("Alpha")
    assert text == rds("list", data=one.given[0][1].given)
    assert one.asked("SELECT COUNT(*), SUM(finished) FROM sessions") == [(1, 1)]


def locked(self: Any, records: Any) -> None:
    raise sqlite3.OperationalError("database is locked")


@pytest.mark.parametrize("begin", [0, 1])
def test_changes_that_are_too_many(begin: int) -> None:
    """Of an item six are stored per minute, and the others counted. A minute waits for two groups after it."""
    part = Part(Clock(0.0), 0, Contents(1187.5))
    for number in range(9):
        part._keep(Event(begin + 104 * number, 0xD318, "ps", str(number), None, str(number)))
    part.pass_to(3 * 71250 + 207)
    told = part.taken()
    assert [(event.number, event.text) for event in told.events] == [(0, text) for text in "012345"]
    assert [minute.more for minute in told.minutes] == [3, 0]
    part.pass_to(3 * 71250 + 208)
    assert len(part.taken().minutes) == 1


def test_texts_that_hold() -> None:
    """An item holds until it is no longer sent, or another PI is."""
    contents, found = Contents(1187.5), []
    for item, text in (("pi", "D318"), ("ps", "ALPHA"), ("rt", "NOW"), ("ps", None), ("pi", "D319")):
        contents.take(Event(0, 0xD318, item, text, None, text or ""))
        found.append(dict(contents.held))
    assert found[2:] == [
        {"pi": "D318", "ps": "ALPHA", "rt": "NOW"},
        {"pi": "D318", "rt": "NOW"},
        {"pi": "D319"},
    ]


def test_what_a_watch_that_was_killed_left(tmp_path: Path) -> None:
    """A run ends with the last look at its station, or else now, and none before it began, though the machine's clock was set back. Parts
    have no byte at first; the oldest session comes first."""
    store = Records(str(tmp_path / "watch.db"))
    runs = {"Alpha": (100.0, 130.0), "Beta": (140.0, 150.0), "Gamma": (200.0, 200.0)}
    for begin, look in ((90.0, 120.0), (110.0, 130.0), (125.0, 124.0)):
        store.write([records.WatchBegan("Alpha", begin), records.StateSeen("Alpha", look, {})])
    store.write([RunBegan(name, begin) for name, (begin, _) in runs.items()])
    store.end_runs(150.0)
    rows = store.database.execute("SELECT station, begin_at, end_at, reason FROM run_rows").fetchall()
    assert rows == [(name, *run, "the watch was killed") for name, run in runs.items()]
    rows = store.database.execute("SELECT begin_at, end_at FROM watched_rows").fetchall()
    assert rows == [(90.0, 120.0), (110.0, 130.0), (125.0, 125.0)]
    old, new = (
        records.PartOpened(
            records.PartKey(f"Alpha {start}", 2 - start), "Alpha", Timing(start), 26, f"{start}"
        )
        for start in (1, 2)
    )
    store.write([new, old])
    assert store.open_parts() == [
        records.OpenPart(one.key, one.timing, 26, 26, one.path, 0) for one in (old, new)
    ]
    assert store.database.execute("SELECT SUM(finished) FROM sessions").fetchone() == (0,)
    store.close()


def test_systemd_may_hear_by_an_abstract_socket(monkeypatch: pytest.MonkeyPatch) -> None:
    name = f"rds-monitor-test-{os.getpid()}"
    monkeypatch.setenv("NOTIFY_SOCKET", f"@{name}")
    with socket.socket(socket.AF_UNIX, socket.SOCK_DGRAM | socket.SOCK_NONBLOCK) as systemd:
        systemd.bind(f"\0{name}")
        journal.notify("READY=1")
        assert systemd.recv(9) == b"READY=1"
