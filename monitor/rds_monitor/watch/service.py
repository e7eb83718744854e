"""The command `watch`: receivers of a network, day and night."""

import argparse
import fcntl
import os
import shutil
import signal
import time
from typing import Any, NamedTuple, Optional

from ..rows.clock import RATE, number_of
from ..rows.decoders import NewDecoder, decoder_of
from ..rows.items import Fault
from ..signal.found import HALF_CHANNEL_HZ
from .journal import notify, say
from .loop import Watch
from .receiver import Process
from .records import WAIT, Records
from .recover import recover
from .table import StationTable, Table, read_table
from .times import Times
from .writer import Writer, WriterThread

POLL, TICK = 0.1, 0.5  # how often receivers are read, and how often what they gave is decoded and written
BEGINNING = 60.0  # at the begin, for another writer of the database
LEAVING = 5.0  # at the end, for the receivers and for the disk
BURST = 4096 * 8 / RATE  # seconds of packed bits in the output buffer of a program, if that is a pipe


def options_watch(parser: argparse.ArgumentParser) -> None:
    parser.description = (
        "Watch stations day and night: run a receiver for each, decode what it gives, and write listings by the hour, a database, "
        "pages, metrics and alarms. It opens no network socket. SIGHUP reads the table again, SIGTERM ends it."
    )
    parser.epilog = (
        "example:\n  rds-monitor watch --folder /var/lib/rds-monitor stations.toml\n"
        "monitor/WATCHING.md describes the table, what is written, and the alarms."
    )
    parser.add_argument("table", metavar="TABLE", help="the table of stations, TOML")
    text = "where to write (default: the table's folder, or STATE_DIRECTORY of systemd)"
    parser.add_argument("--folder", metavar="FOLDER", help=text)
    text = "decode by processes of this program rds (default: by librds, or by rds if that is missing)"
    parser.add_argument("--program", metavar="PROGRAM", help=text)
    text = "check the table and that its commands exist, and end"
    parser.add_argument("--check", action="store_true", help=text)
    text = "let the clock go N times as fast, for tests and demonstrations"
    parser.add_argument("--speed", type=number_of, default=1.0, metavar="N", help=text)


def run_watch(arguments: argparse.Namespace) -> int:
    table = read_table(arguments.table)
    if arguments.check:
        return check_table(table)
    if arguments.speed < 0.01:
        raise Fault("--speed is a number above 0")
    folder = arguments.folder or table.folder or os.environ.get("STATE_DIRECTORY", "").split(":")[0]
    if not folder:
        raise Fault("there is no folder to write to: name it by --folder, or 'folder' in the table")
    decoding = decoding_of(arguments.program or table.program, table)
    return Service(arguments.table, decoding, os.path.abspath(folder), arguments.speed).run()


class Decoding(NamedTuple):
    """The program that was asked for, the decoder, its name, and the table as far as it can do that."""

    program: Optional[str]
    new: NewDecoder
    name: str
    table: Table


def has_soft(table: Table) -> bool:
    return any(station.soft for station in table.stations)


def decoding_of(program: Optional[str], table: Table) -> Decoding:
    """Of a decoder without soft decisions, these are not taken by default."""
    try:
        return Decoding(program, *decoder_of(program, ["follow"] if has_soft(table) else []), table)
    except Fault:
        if table.needs_soft or not has_soft(table):
            raise
    decoding = Decoding(program, *decoder_of(program), table.hard())
    say("notice", f"{decoding.name} has no soft decisions: blocks are corrected by bursts")
    return decoding


def check_table(table: Table) -> int:
    """Lists the stations, and says which commands cannot be run, and which receivers may seem to be silent."""
    commands = [("program", table.program or "sh")]
    for receiver in table.receivers:
        print(f"receiver {receiver.name}: {receiver.centre:g} MHz, {' '.join(receiver.command)}")
        commands.append((f"receiver {receiver.name}", receiver.command[0]))
    for station in table.stations:
        shared, own = station.receiver, () if station.receiver else station.command
        form = f"{station.form}, soft decisions" if station.soft else station.form
        print(f"{station.name}: {form}, {f'receiver {shared.name}' if shared else ' '.join(own)}")
        commands += [(station.name, words[0]) for words in (own, station.alarm_command) if words]
        warn_of_the_centre(station)
        allowed = min(pause for pause in (station.patience, station.alarms.silent) if pause is not None)
        if station.form == "bits" and allowed < BURST and "stdbuf" not in station.command:
            text = f"a receiver with an output buffer of 4 KiB writes each {BURST:.1f} s"
            cure = "begin its command with stdbuf -o0, or raise patience and silent"
            say("warning", f"{station.name}: {text}, and {allowed:g} s are allowed: {cure}")
    missing = [(of, word) for of, word in commands if shutil.which(word) is None]
    for of, word in missing:
        there = os.path.exists(word)
        say("error", f"{of}: {word!r} may not be run" if there else f"{of}: there is no program {word!r}")
    return 1 if missing else 0


def warn_of_the_centre(station: StationTable) -> None:
    """Many receivers have a spike at 0 Hz."""
    shared = station.receiver
    if shared and abs(shared.offset(station.frequency or 0)) < HALF_CHANNEL_HZ:
        text = f"the centre of receiver {shared.name}, {shared.centre:g} MHz, is in its channel"
        cure = f"if there is a spike at 0 Hz, choose a centre {HALF_CHANNEL_HZ / 1000:g} kHz or more from each station"
        say("warning", f"{station.name}: {text}: {cure}")


class Service:
    """The watch as a process: its signals, its pace, and its words to systemd."""

    def __init__(self, path: str, decoding: Decoding, folder: str, speed: float):
        self._path, self._decoding, table = path, decoding, decoding.table
        self._ending = self._rereading = False
        os.makedirs(folder, exist_ok=True)
        self._lock = self._only_one(folder)
        self._records = Records(os.path.join(folder, "watch.db"))
        times = Times(speed)
        if speed != 1:
            # By it a simulated receiver knows the time.
            os.environ["RDS_MONITOR_FAST"] = f"{times.begin!r} {speed!r}"
        names = [station.name for station in table.stations]
        self._records.wait(BEGINNING)
        for path in recover(folder, names, self._records):
            say("notice", f"{path}: the last watch was killed; the hour is whole again")
        self._records.end_runs(times.now().utc)
        self._records.wait(WAIT)
        self._writer = Writer(folder, self._records, say)
        self._thread = WriterThread(self._writer)
        self._watch = Watch(table, folder, times, Process, decoding.new, self._thread, self._records, say)

    @staticmethod
    def _only_one(folder: str) -> int:
        lock = os.open(os.path.join(folder, "watch.lock"), os.O_RDWR | os.O_CREAT | os.O_CLOEXEC, 0o644)
        try:
            fcntl.flock(lock, fcntl.LOCK_EX | fcntl.LOCK_NB)
        except OSError:
            raise Fault(f"another watch writes to {folder!r}") from None
        os.utime(lock)  # by it `check` knows since when the watch runs
        return lock

    def run(self) -> int:
        for number in (signal.SIGTERM, signal.SIGINT, signal.SIGHUP):
            signal.signal(number, self._hear)
        # A reader of standard error that leaves must not end the watch.
        signal.signal(signal.SIGPIPE, signal.SIG_IGN)
        self._thread.start()
        say("info", f"{len(self._watch.stations)} stations are watched, decoded by {self._decoding.name}")
        notify("READY=1")
        try:
            self._go_on()
            notify("STOPPING=1")
            return self._leave()
        finally:
            self._watch.kill()

    def _hear(self, number: int, _: Any) -> None:
        self._rereading |= number == signal.SIGHUP
        self._ending |= number != signal.SIGHUP

    def _go_on(self) -> None:
        next_tick = time.monotonic()
        while not self._ending:
            if self._thread.crash:
                raise Fault(f"nothing can be written any more: {self._thread.crash}")
            time.sleep(POLL)
            self._watch.poll()
            if self._rereading:
                self._rereading = False
                self._read_table()
            if time.monotonic() >= next_tick:
                self._watch.tick()
                notify("WATCHDOG=1")
                next_tick = max(next_tick + TICK, time.monotonic())

    def _read_table(self) -> None:
        notify(f"RELOADING=1\nMONOTONIC_USEC={time.monotonic_ns() // 1000}")
        try:
            self._watch.reload(self._fitted(read_table(self._path)))
            say("notice", f"the table is read again: {len(self._watch.stations)} stations")
        except Fault as error:
            say("error", f"the old table holds: {error}")
        notify("READY=1")

    def _fitted(self, table: Table) -> Table:
        """As far as the decoder can do it."""
        if not has_soft(table):
            return table
        decoding = decoding_of(self._decoding.program, table)
        if decoding.name != self._decoding.name:
            raise Fault(f"soft decisions by {decoding.name} need a restart")
        return decoding.table

    def _leave(self) -> int:
        """Ends the sessions and writes them, for some seconds at most."""
        self._watch.stop()
        end = time.monotonic() + LEAVING
        while not self._watch.has_left and time.monotonic() < end:
            time.sleep(0.05)
        self._watch.kill()
        self._thread.end(LEAVING)
        self._writer.close()
        self._records.close()
        os.close(self._lock)
        if self._thread.fault:
            say("error", f"rows were not written: {self._thread.fault}")
        return 1 if self._thread.fault else 0
