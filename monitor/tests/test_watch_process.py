"""The command `watch` as a process: signals, SIGKILL, a full disk, systemd's socket, commands of the user's, and asking."""

from __future__ import annotations

import json
import os
import random
import resource
import signal
import socket
import subprocess
import sys
import time
from pathlib import Path
from typing import Any, Callable, Dict, Iterable, Iterator, List, Tuple

import pytest

from conftest import COMMAND, TOP, encode, monitor
from made import run
from modulator import mpx, stored
from network import GROUPS_PER_SECOND, Programme, asked, decoders_of, hours_in, numbers_in, told_once
from rds_monitor.watch.records import Records, StateSeen

STATION = TOP / "monitor" / "demo" / "station.py"
# For a machine that is loaded; nothing waits for so long else.
PATIENCE = 60.0


# Processes of a test.
STARTED: List[int] = []


@pytest.fixture(autouse=True)
def nothing_is_left() -> Iterator[None]:
    """A test that fails leaves no process."""
    yield
    for pid in STARTED:
        try:
            os.kill(pid, signal.SIGKILL)
        except ProcessLookupError:
            pass
    STARTED.clear()


def receiver(folder: Path, *words: str) -> List[str]:
    words = ("--pi", "D318", "--ps", "ALPHA", "--rt", "Now: nothing", "--sent", str(folder / "sent"), *words)
    return [sys.executable, str(STATION), *words]


def table(folder: Path, *lines: str, command: "List[str] | None" = None) -> Path:
    path = folder / "stations.toml"
    words = json.dumps(command or receiver(folder))
    alpha = (f'folder = "{folder}"', "[[station]]", 'name = "Alpha"', f"command = {words}")
    path.write_text("\n".join([*alpha, *lines, ""]))
    return path


class Process:
    """A watch, with its lines on standard error in a file."""

    def __init__(self, folder: Path, path: Path, program: str = "", **environment: str):
        self.folder, self.log = folder, folder / "log"
        words = [*COMMAND, "watch", *(["--program", program] if program else []), str(path)]
        with open(self.log, "ab") as log:
            self.it = subprocess.Popen(words, stderr=log, env={**os.environ, **environment})
        STARTED.append(self.it.pid)

    def until(self, holds: Callable[[], bool]) -> None:
        end = time.monotonic() + PATIENCE
        while not holds():
            assert time.monotonic() < end and self.it.poll() is None, self.log.read_text()
            time.sleep(0.05)

    def says(self, text: str) -> None:
        self.until(lambda: text in self.log.read_text())

    def receives(self, more: int = 0) -> None:
        """Rows are written, and then some more bytes of them."""
        begin = written(self.folder)
        self.until(lambda: written(self.folder) > begin + more)

    def receiver(self) -> int:
        """The process of its only receiver."""
        children = Path(f"/proc/{self.it.pid}/task/{self.it.pid}/children").read_text().split()
        (found,) = {int(pid) for pid in children} - set(decoders_of(self.it.pid))
        return found

    def end(self, number: int = signal.SIGTERM) -> int:
        self.it.send_signal(number)
        status = self.it.wait(PATIENCE)
        STARTED.remove(self.it.pid)
        return status


def written(folder: Path) -> int:
    return sum(path.stat().st_size for path in (folder / "listings").glob("*/*.csv"))


def runs_in(path: Path) -> List[List[range]]:
    """The groups of each write, by runs of the receiver."""
    runs: List[List[range]] = []
    for line in path.read_text().splitlines():
        first, after = map(int, line.split())
        if not runs or runs[-1][-1].stop != first:
            runs.append([])
        runs[-1].append(range(first, after))
    return runs


# ---- signals


@pytest.mark.parametrize("number", [signal.SIGTERM, signal.SIGINT])
def test_a_watch_that_is_ended(tmp_path: Path, number: int) -> None:
    """Its sessions have their totals, its receivers are gone, and all that they sent is there."""
    one = Process(tmp_path, table(tmp_path))
    one.receives(1000)
    process = one.receiver()
    assert one.end(number) == 0 and not Path(f"/proc/{process}").exists()
    assert (tmp_path / "watch.lock").stat().st_mode & 0o133 == 0
    assert "rows were not written" not in one.log.read_text()
    # two, if an hour ends meanwhile
    *earlier, hour = sorted((tmp_path / "listings" / "Alpha").iterdir())
    assert len(earlier) < 2
    assert hour.read_bytes().endswith(b"-,-,-,-,-\n") and b"total,losses," in hour.read_bytes()
    assert monitor("info", hour).returncode == 0
    assert asked(tmp_path, "SELECT reason FROM runs") == [("the watch ended",)]
    all_received(tmp_path)


def all_received(folder: Path) -> None:
    """Each group that the receiver sent whole, but for the first and the last ones, is there once."""
    (writes,) = runs_in(folder / "sent")
    wanted = numbered(range(writes[0].start + 6, writes[-2].stop))
    numbers = [number for number, _ in numbers_in(hours_in(folder, "Alpha"))]
    assert numbers == sorted(set(numbers)) and set(wanted) <= set(numbers)


def numbered(numbers: Iterable[int]) -> List[int]:
    """The numbers of the groups that have them."""
    return [n & 0xFFFFFFFF for n in numbers if n % 6 == 5 and not crosses_minute(n)]


def crosses_minute(number: int) -> bool:
    """Whether the group is one of clock time in place of its number."""
    return int((number + 1) / GROUPS_PER_SECOND / 60) > int(number / GROUPS_PER_SECOND / 60)


def test_pages_and_metrics(tmp_path: Path) -> None:
    process = Process(tmp_path, table(tmp_path, 'pi = "D319"', "frequency = 98.1"))
    process.says("alarm pi begins: PI D318 in place of D319")
    line = 'rds_alarm{station="Alpha",alarm="pi"} 1'
    process.until(lambda: line in (tmp_path / "metrics.prom").read_text())
    page = (tmp_path / "pages" / "index.html").read_text()
    assert "PI D318 in place of D319" in page and 'class="tile critical"' in page and "<script" not in page
    assert "Alpha" in (tmp_path / "pages" / "Alpha.html").read_text()
    done = monitor("check", "--station", "Alpha", tmp_path / "watch.db")
    assert done.returncode == 2 and b"RDS CRITICAL - pi: PI D318 in place of D319" in done.stdout
    assert process.end() == 0
    # The alarm lasts: nobody saw it end.
    assert asked(tmp_path, "SELECT alarm, end_utc FROM alarms") == [("pi", None)]


def test_a_table_that_is_read_again(tmp_path: Path) -> None:
    """After an error the old one holds. The receiver is not restarted for other limits."""
    path = table(tmp_path)
    process = Process(tmp_path, path)
    process.receives(500)
    good = path.read_text()
    path.write_text("[[station")
    process.it.send_signal(signal.SIGHUP)
    process.says("the old table holds")
    path.write_text(good + 'pi = "D319"\n')
    process.it.send_signal(signal.SIGHUP)
    process.says("the table is read again: 1 stations")
    process.says("alarm pi begins")
    assert process.end() == 0
    assert asked(tmp_path, "SELECT COUNT(*) FROM runs") == [(1,)]


def test_one_watch_per_folder(tmp_path: Path) -> None:
    path = table(tmp_path)
    process = Process(tmp_path, path)
    process.receives()
    other = monitor("watch", path)
    assert other.returncode == 1 and b"another watch writes to" in other.stderr
    assert process.end() == 0


# ---- killed


# Starts watches in processes of their own without importing all of it each time. A line of input starts one.
FORKER = """
import os, signal, sys
from rds_monitor import cli
from rds_monitor.watch import journal, loop, receiver, records, recover, table, times, writer
signal.signal(signal.SIGCHLD, signal.SIG_IGN)
for line in sys.stdin:
    pid = os.fork()
    if not pid:
        signal.signal(signal.SIGCHLD, signal.SIG_DFL)
        os._exit(cli.main(["watch", line.rstrip()]))
    print(pid, flush=True)
"""


class Forker:
    def __init__(self, folder: Path):
        words, pipe = [sys.executable, "-c", FORKER], subprocess.PIPE
        with open(folder / "log", "ab") as log:
            self._it = subprocess.Popen(words, stdin=pipe, stdout=pipe, stderr=log, text=True)
        STARTED.append(self._it.pid)

    def start(self, path: Path) -> int:
        assert self._it.stdin and self._it.stdout
        self._it.stdin.write(f"{path}\n")
        self._it.stdin.flush()
        STARTED.append(int(self._it.stdout.readline()))
        return STARTED[-1]

    def kill(self, pid: int) -> None:
        os.kill(pid, signal.SIGKILL)
        while Path(f"/proc/{pid}").exists():
            time.sleep(0.01)
        STARTED.remove(pid)

    def end(self) -> None:
        assert self._it.stdin and self._it.stdout
        self._it.stdin.close()
        self._it.wait()
        self._it.stdout.close()
        STARTED.remove(self._it.pid)


@pytest.mark.alone
def test_killed_fifty_times(tmp_path: Path) -> None:
    """At random moments: nothing is lost but the last second, nothing is there twice, and the database agrees. It runs alone: on a loaded
    machine a second may take longer."""
    chance = random.Random(7)
    path, forker = table(tmp_path), Forker(tmp_path)
    for _ in range(50):
        pid, before = forker.start(path), written(tmp_path)
        end = time.monotonic() + chance.uniform(0, 0.3) + (PATIENCE if chance.random() < 0.8 else 0)
        while time.monotonic() < end and written(tmp_path) == before:
            time.sleep(0.02)
        time.sleep(chance.uniform(0, 1.5))
        forker.kill(pid)
    forker.end()
    last = Process(tmp_path, path)
    last.receives(500)
    assert last.end() == 0
    assert ".csv: the last watch was killed; the hour is whole again\n" in last.log.read_text()
    numbers = [number for number, _ in numbers_in(hours_in(tmp_path, "Alpha"))]
    assert numbers == sorted(set(numbers)) and len(numbers) > 60
    nothing_lost(set(numbers), runs_in(tmp_path / "sent"))
    told_once(tmp_path)
    # A machine that is loaded gives bits late.
    high = int(time.time() * GROUPS_PER_SECOND) >> 32 << 32
    hours = hours_in(tmp_path, "Alpha")
    off = sorted(abs(utc - (high + number) / GROUPS_PER_SECOND) for number, utc in numbers_in(hours))
    assert off[len(off) // 2] < 1


# Those of a second and a little more. If the machine halts for a while, the receiver does, too.
LAST_WRITES = 12


def nothing_lost(found: "set[int]", runs: List[List[range]]) -> None:
    """Of a run that left rows, all numbers are there but those of its first group, which gives sync, and of its last writes."""
    wanted: List[int] = []
    for writes in runs:
        numbers = numbered([n for write in writes[:-LAST_WRITES] for n in write][1:])
        wanted += numbers if found.intersection(numbers) else []
    assert wanted and [n for n in wanted if n not in found] == []


# ---- receivers


def test_a_receiver_that_is_killed(tmp_path: Path) -> None:
    process = Process(tmp_path, table(tmp_path))
    process.receives(500)
    os.kill(process.receiver(), signal.SIGKILL)
    process.says("Alpha: the receiver was ended by SIGKILL")
    process.receives(500)
    assert process.end() == 0
    assert len({number for number, _ in numbers_in(hours_in(tmp_path, "Alpha"))}) > 3
    assert len(list((tmp_path / "listings" / "Alpha").iterdir())) == 2


def test_receivers_that_are_none(tmp_path: Path) -> None:
    none = ("[[station]]", 'name = "None"', 'command = ["/none/receiver", "-x"]')
    fails = ("[[station]]", 'name = "Fails"', 'command = ["sh", "-c", "echo no such device >&2; exit 3"]')
    process = Process(tmp_path, table(tmp_path, *none, *fails))
    process.says("None: the receiver cannot be started: No such file or directory")
    process.says("Fails: the receiver ended with status 3: no such device")
    assert process.end() == 0


@pytest.mark.parametrize("soft", ["soft = false", ""])
def test_mpx_is_demodulated(soft: str, tmp_path: Path) -> None:
    """The tests' modulator makes six seconds, which a receiver repeats. Soft decisions are the default, and SIGHUP takes them."""
    programme = Programme(0xD318, "ALPHA", "Now: nothing")
    data = encode([programme.group(n) for n in range(6, 6 + 72)])
    (tmp_path / "mpx").write_bytes(stored(mpx(data, 192000), "s16"))
    words = ["sh", "-c", f"while cat {tmp_path}/mpx; do sleep 6; done"]
    keys = ['form = "mpx"', 'raw = "s16"', "rate = 192000", soft]
    process = Process(tmp_path, table(tmp_path, *keys, command=words))
    process.receives(1000)
    if soft:
        table(tmp_path, *keys[:-1], command=words)
        process.it.send_signal(signal.SIGHUP)
        process.says("the table is read again")
        process.receives(1000)
    assert process.end() == 0
    paths = sorted((tmp_path / "listings" / "Alpha").iterdir(), key=lambda path: path.stat().st_mtime)
    assert [path.stem.endswith("_soft") for path in paths] == [False, True][-len(paths) :]
    for path in paths:
        assert (b"total,soft6," in path.read_bytes()) == path.stem.endswith("_soft")
    texts = asked(tmp_path, "SELECT DISTINCT value FROM events WHERE item IN ('pi', 'ps') ORDER BY 1")
    assert texts == [("ALPHA",), ("D318",)]


def test_a_command_for_alarms(tmp_path: Path) -> None:
    """Its words are words: no shell reads what a station sent."""
    words = receiver(tmp_path)
    words[words.index("ALPHA")] = "; id > x"
    page = f'alarm_command = ["sh", "-c", "printf \'%s|\' \\"$@\\" >> {tmp_path}/pages.log", "-", "{{station}}", "{{alarm}}", "{{state}}", "{{text}}"]'
    path, log = (
        table(tmp_path, page, 'ps = "BETA"', "[station.alarms]", "ps = 2", command=words),
        tmp_path / "pages.log",
    )
    process = Process(tmp_path, path)
    process.until(lambda: log.exists() and log.read_text().count("|") == 4)
    assert log.read_text() == "Alpha|ps|begin|PS ; id > x in place of BETA|"
    assert process.end() == 0 and not (tmp_path / "x").exists() and not Path("x").exists()


# ---- the disk, and systemd


def test_no_room_for_a_while(tmp_path: Path) -> None:
    """Files may not grow: rows wait, an alarm tells of it, and then all of them are there."""
    process = Process(tmp_path, table(tmp_path, "[station.alarms]", "disk = 1"))
    process.receives(500)
    size = max(path.stat().st_size for path in tmp_path.rglob("*") if path.is_file())
    endless, kind = resource.RLIM_INFINITY, resource.RLIMIT_FSIZE
    resource.prlimit(process.it.pid, kind, (min(size, 4096), endless))
    process.says("rows cannot be written")
    time.sleep(3)
    resource.prlimit(process.it.pid, kind, (endless, endless))
    process.says("rows are written again")
    process.receives(500)
    assert process.end() == 0
    *earlier, last_hour = sorted((tmp_path / "listings" / "Alpha").iterdir())
    assert len(earlier) < 2
    all_received(tmp_path)
    assert b"total,losses," in last_hour.read_bytes()
    assert asked(tmp_path, "SELECT alarm FROM alarms") == [("disk",)]


def test_what_systemd_hears(tmp_path: Path) -> None:
    address = str(tmp_path / "notify")
    with socket.socket(socket.AF_UNIX, socket.SOCK_DGRAM) as heard:
        heard.bind(address)
        heard.settimeout(PATIENCE)
        process = Process(tmp_path, table(tmp_path), NOTIFY_SOCKET=address)
        said = [heard.recv(100).decode() for _ in range(3)]
        assert said == ["READY=1", "WATCHDOG=1", "WATCHDOG=1"]
        process.it.send_signal(signal.SIGTERM)
        while said[-1] != "STOPPING=1":
            said.append(heard.recv(100).decode())
        assert process.it.wait(PATIENCE) == 0
        STARTED.remove(process.it.pid)


def test_it_opens_no_socket(tmp_path: Path) -> None:
    """Without systemd it has none at all."""
    process = Process(tmp_path, table(tmp_path))
    process.receives()
    links = [os.readlink(path) for path in Path(f"/proc/{process.it.pid}/fd").iterdir() if path.is_symlink()]
    assert not [link for link in links if link.startswith("socket:")] and len(links) < 30
    assert process.end() == 0


def test_the_demonstration(tmp_path: Path) -> None:
    """Three simulated stations are on a page, and four of one capture on another, beside a picture of it. The addresses are printed."""
    demo = tmp_path / "demo"
    words = [sys.executable, STATION.parent / "run.py", "--folder", demo, "--seconds", "2"]
    done = subprocess.run(words, stdout=subprocess.PIPE, stderr=subprocess.DEVNULL, timeout=3 * PATIENCE)
    pages = [demo / name for name in ("pages/index.html", "capture.html", "capture/pages/index.html")]
    assert done.returncode == 0 and done.stdout.decode() == "".join(f"{page.as_uri()}\n" for page in pages)
    assert all(
        text in page.read_text() for page in pages[1:] for text in ("DELTA", "EPSILON", "ZETA", "ETA FM")
    )
    page = pages[0]
    assert all(f">{ps}<" in page.read_text() for ps in ("ALPHA", "BETA FM", "GAMMA"))


# ---- asking


def state(**changes: Any) -> Dict[str, Any]:
    known: Dict[str, Any] = {
        "utc": time.time(),
        "minute": {"sent": 2740, "valid": 2700, "corrected": 20},
        "last_group_utc": time.time() - 0.5,
        "alarms": {},
        "session_utc": time.time() - 900,
        "reason": "",
        "held": {"pi": "D318", "ps": "ALPHA"},
    }
    return {**known, **changes}


def asked_of(folder: Path, known: Dict[str, Any], *words: str, ago: float = 3) -> Tuple[int, str]:
    records = Records(str(folder / "watch.db"))
    records.write([StateSeen("Alpha", time.time() - ago, known)])
    records.close()
    done = run("check", "--station", "Alpha", *words, folder / "watch.db")
    return done.status, done.out


def test_check_asks_the_database(tmp_path: Path) -> None:
    status, line = asked_of(tmp_path, state())
    assert status == 0
    assert line.startswith("RDS OK - 98.54 % of the blocks of the last minute valid, last valid group 0.5")
    assert "programme D318, name ALPHA | valid=98.54%;90:;50:;0;100 corrected=0.73%;;;0;100 age=0.5" in line
    assert line.endswith(" received=0s noise=0s down=0s unknown=86400s\n")
    minute = {"sent": 2740, "corrected": 20}
    for status, known, words in (
        (1, {"alarms": {"ta": "TA is on"}}, ()),
        (2, {"alarms": {"no_rds": "no valid block for 20 s", "ta": "TA is on"}}, ()),
        (1, {"minute": {**minute, "valid": 2000}}, ()),
        (2, {"minute": {**minute, "valid": 900}}, ()),
        (1, {}, ("-w", "99")),
        (2, {}, ("--pi", "D319")),
        (0, {}, ("--pi", "D318")),
        (2, {}, ("--name", "BETA")),
        (1, {"held": {}}, ("--name", "BETA")),
        (1, {"last_group_utc": time.time() - 30}, ()),
        (2, {"last_group_utc": None, "minute": None}, ()),
    ):
        assert asked_of(tmp_path, state(**known), *words)[0] == status, (known, words)


def test_check_without_an_answer(tmp_path: Path) -> None:
    status, line = asked_of(tmp_path, state(), ago=100)
    assert status == 3 and "Alpha was last looked at 100 s ago: rds-monitor watch does not run" in line
    beta = "check", "--station", "Beta"
    assert "has no station Beta: there are Alpha" in run(*beta, tmp_path / "watch.db").out
    assert run(*beta, tmp_path / "none.db").status == run(*beta, "a", "b").status == 3
    assert not (tmp_path / "none.db").exists()
