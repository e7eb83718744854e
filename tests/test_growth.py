"""Time that grows as the input does, and jobs that do the same in two ways. It runs alone.

Jobs run over inputs of three sizes, each four times the one before: their CPU time may grow eightfold. A job that goes over its input a few
times takes four times as long; one that goes over it once per acquisition, gap, piece or row takes sixteen times. No time is compared with
seconds. Other programs disturb a measurement, so the least time counts, and a job fails only after fifteen attempts.
With valgrind, instructions of the library's calls are counted, which no other program changes. rds_bench times calls of the libraries in
Rattle, and two forms of one task: if their times get too close, the slow form may have replaced the fast one.
"""

from __future__ import annotations

import os
import signal
import subprocess
import time
from functools import lru_cache
from pathlib import Path
from typing import Callable, NamedTuple, Sequence

import pytest
from inputs import chances, gaps, past_mending, sent, words
from running import LIMIT, TOP, instructions, needs, wrote

pytestmark = pytest.mark.alone

# The largest ratio of the times of two sizes, and how often a job and a pair of forms are measured.
MOST, ATTEMPTS, TURNS = 8, 15, 8
SIZES = (1, 4, 16)
STATION = (TOP / "examples" / "station.bin").read_bytes()


# ---- inputs of one size


def noise(seed: int, count: int) -> list[str]:
    return [row + row[:10] for row in words(seed, count)]


def losing(groups: list[str]) -> list[str]:
    """Two groups of a station and four of noise, by turns: each time sync is acquired, and lost."""
    heard = iter(noise(31, len(groups)))
    return [row if number % 6 < 2 else next(heard) for number, row in enumerate(groups, 1)]


def damaged(groups: list[str]) -> list[str]:
    """One digit in some hundred is another."""
    rows = []
    for row, x in zip(groups, chances(37)):
        at = x % 104
        rows.append(f"{row[:at]}{x // 104 % 16:x}{row[at + 1 :]}" if at < 26 else row)
    return rows


def turned(groups: list[str], count: int) -> list[str]:
    """A bit is turned in about one byte of so many."""
    numbers, rows = chances(43), []
    for row in groups:
        held = bytearray.fromhex(row)
        for k in range(13):
            x = next(numbers)
            if x % count == 0:
                held[k] ^= 1 << 4 * (1 - x // count % 2) + x // count // 2 % 4
        rows.append(held.hex())
    return rows


class Inputs:
    """Files by a name and a size, such as station.4."""

    def __init__(self, folder: Path) -> None:
        self.folder, self.groups = folder, sent(words(23, 12000))

    @lru_cache(None)
    def one(self, name: str) -> bytes:
        if name == "lines":
            return "".join(f"{row}\n" for row in words(41, 8000)).encode()
        if name == "sample":
            return STATION
        rows = {
            "station": lambda: self.groups,
            # There is work for two workers.
            "twice": lambda: 2 * self.groups,
            "hiss": lambda: noise(29, 12000),
            "losing": lambda: losing(self.groups),
            "damaged": lambda: damaged(self.groups),
            "worst": lambda: past_mending(self.groups),
        }
        return bytes.fromhex(
            "".join(rows[name]() if name in rows else turned(self.groups, int(name.split("_")[-1])))
        )

    @lru_cache(None)
    def file(self, text: str) -> Path:
        name, size = text.split(".")
        path = self.folder / text
        held = self.one(name)
        path.write_bytes(
            held[:8192] if size == "few" else held[:640] if size == "fewer" else int(size) * held
        )
        return path


@pytest.fixture(scope="session")
def inputs(tmp_path_factory: pytest.TempPathFactory) -> Inputs:
    return Inputs(tmp_path_factory.mktemp("growth"))


# ---- times


class Spent(NamedTuple):
    """The CPU-milliseconds of a run, which are without end if it was refused, and what it wrote."""

    time: float
    out: bytes


def spend(command: Sequence[object], path: Path, limit: float = LIMIT, is_slow: bool = False) -> Spent:
    """Runs a job whose reader waits after each 64 KiB if it is slow. It ends after `limit` seconds."""
    out, began = [], time.monotonic()
    with path.open("rb") as given:
        child = subprocess.Popen(
            [*map(str, command)], stdin=given, stdout=subprocess.PIPE, stderr=subprocess.DEVNULL
        )
    with child:
        assert child.stdout
        while part := os.read(child.stdout.fileno(), 65536):
            out.append(part)
            time.sleep(0.005 if is_slow else 0)
            if time.monotonic() > began + limit:
                # Popen.kill would look whether it has ended, and take its status from wait4.
                os.kill(child.pid, signal.SIGKILL)
        _, status, used = os.wait4(child.pid, 0)
        child.returncode = os.waitstatus_to_exitcode(status)
    is_done = child.returncode == 0 and out
    return Spent(1000 * (used.ru_utime + used.ru_stime) if is_done else float("inf"), b"".join(out))


class Growth:
    """The least times of a job of each size so far."""

    def __init__(self) -> None:
        self.least: dict[int, float] = {}

    def is_too_fast(self) -> bool:
        times = [self.least[size] for size in SIZES if size in self.least]
        return (
            any(later > MOST * earlier for earlier, later in zip(times, times[1:])) or float("inf") in times
        )

    def measure(self, size: int, command: Sequence[object], path: Path) -> None:
        before = self.least.get(size // 4, 15000.0)
        spent = spend(command, path, 4 * MOST * before / 1000 + 10)
        self.least[size] = min(spent.time, self.least.get(size, spent.time))


def grows_as_its_input(command: Callable[[int], Sequence[object]], file: Callable[[int], Path]) -> None:
    growth = Growth()
    for _ in range(ATTEMPTS):
        for size in SIZES:
            growth.measure(size, command(size), file(size))
            if growth.is_too_fast():
                break
        else:
            return
    pytest.fail(f"CPU-milliseconds of one, four and sixteen times as much: {growth.least}", pytrace=False)


def of_size(text: str, size: int) -> list[str]:
    """The words of a job of this size; COUNT grows to a million."""
    numbers = {"PIECES": 16 * size, "COUNT": 62500 * size, "CHUNK": 16384 * size}
    return [gaps(300 * size) if word == "GAPS" else str(numbers.get(word, word)) for word in text.split()]


GROWING = [
    *(
        f"{name} {job}"
        for name in ("station", "damaged", "losing", "hiss")
        for job in ("scan --workers 1", "list --pieces 1 --workers 1", "totals --workers 1")
    ),
    # Each size is for two workers: a thread that shares its processor with another takes more CPU time.
    "twice scan --workers 2",
    "twice totals --workers 2",
    "losing list --loss 1 --reach 8 --pieces 1 --workers 1",
    "losing totals --share 3 --of 20 --pieces PIECES --workers 1",
    "worst totals --loss 1 --pieces PIECES --workers 2",
    "worst list --loss 1 --pieces 1 --workers 1",
    "station list --pieces PIECES --workers 2",
    # pieces of many parts of rows
    "station list --pieces 2 --workers 2",
    "station list --gaps GAPS --workers 1",
    "losing totals --gaps GAPS --pieces PIECES --workers 1",
    "lines encode",
    "lines encode --hex",
    "lines list --hex --workers 1",
]


@pytest.mark.parametrize("job", GROWING)
def test_growth(rds: str, inputs: Inputs, job: str) -> None:
    name, _, given = job.partition(" ")
    grows_as_its_input(lambda size: [rds, *of_size(given, size)], lambda size: inputs.file(f"{name}.{size}"))


# ---- jobs that do the same in two ways

MANY, FAR, NEAR = gaps(10000, 9, 5), gaps(4900, 1000, 5), gaps(2000, 9, 5)
# The input, how many times the time of the second the first may take, and both; ~ is a slow reader.
BESIDE = """
station.16 : 2 : follow : list --workers 1
losing.16 : 2 : follow : list --workers 1
station.16 : 2 : follow --bits 19000001 : list --workers 1 --bits 19000001
station.16 : 2 : follow --gaps MANY : list --workers 1 --gaps MANY
station.16 : 4 : scan --workers 8 : scan --workers 1
station.16 : 4 : scan --workers 32 : scan --workers 1
station.16 : 4 : list --workers 8 : list --workers 1
station.16 : 4 : list --workers 32 : list --workers 1
station.16 : 2 : list --progress : list
station.4 : 2 : ~ list : list
station.1 : 3 : list --workers 4 : list --workers 1
damaged.16 : 3 : totals --workers 4 : totals --workers 1
hiss.16 : 3 : totals --workers 4 : totals --workers 1
worst.16 : 3 : totals --loss 1 --workers 4 : totals --loss 1 --workers 1
station.4 : 3 : list --gaps FAR --workers 1 : list --workers 1
hiss.4 : 3 : scan --gaps FAR --workers 1 : scan --workers 1
"""


def rows_of(text: str) -> list[list[str]]:
    return [line.split(" : ") for line in text.strip().splitlines()]


def beside(path: Path, times: float, these: list[str], those: list[str]) -> None:
    """Whether the first job takes at most so many times the time of the second; the least of three or more of each counts."""
    is_slow, least = these[1] == "~", [float("inf"), float("inf")]
    commands = [those, [word for word in these if word != "~"]]
    for attempt in range(1, ATTEMPTS + 1):
        for k, command in enumerate(commands):
            least[k] = min(least[k], spend(command, path, is_slow=is_slow and k == 1).time)
        if attempt > 2 and least[1] <= times * least[0] < float("inf"):
            return
    assert float("inf") not in least, f"{these} or {those} is not done"
    pytest.fail(f"{least[1]} ms of a processor, and not {times} times {least[0]}", pytrace=False)


def spelled(text: str) -> list[str]:
    named = {"MANY": MANY, "FAR": FAR, "NEAR": NEAR}
    return [named.get(word, word) for word in text.split()]


@pytest.mark.parametrize("name, times, these, those", rows_of(BESIDE))
def test_two_ways(rds: str, inputs: Inputs, name: str, times: str, these: str, those: str) -> None:
    beside(inputs.file(name), float(times), [rds, *spelled(these)], [rds, *spelled(those)])


# ---- calls of the library for C


@pytest.fixture(scope="session")
def timed(librds: str, inputs: Inputs) -> str:
    """The program of timed.c."""
    path = inputs.folder / "timed"
    words = ["-O2", f"-I{librds}", "-o", path, TOP / "tests/library/timed.c", f"{librds}/librds.a"]
    wrote(os.environ.get("CC", "cc"), *words)
    return str(path)


# The input, at most how many percent of the second's instructions the first takes, and both: of timed or of the program.
COUNTED = """
sample.1 : 70 : push 65536 0 : list --workers 1
sample.1 : 118 : push 1024 0 : list --workers 1
sample.1 : 115 : push 1024 2000 : list --workers 1 --gaps NEAR
sample.1 : 152 : run 0 0 : list --workers 1
sample.1 : 220 : run 4096 0 : list --workers 1
sample.1 : 236 : run 4096 2000 : list --workers 1 --gaps NEAR
sample.8 : 71 : push 65536 10000 : list --workers 1 --gaps MANY
sample.8 : 185 : run 16384 0 : list --workers 1
sample.fewer : 125 : push 64 100000 : look 64 100000
"""
known: dict[str, int] = {}


def called(rds: str, timed: str, text: str) -> list[str]:
    return [rds if text.startswith("list") else timed, *spelled(text)]


@pytest.mark.parametrize("name, most, these, those", rows_of(COUNTED))
def test_instructions(
    rds: str, timed: str, inputs: Inputs, name: str, most: str, these: str, those: str
) -> None:
    """Less than four fifths of the bound fails too, since then it holds nothing."""
    needs("valgrind")
    for text in (these, those):
        if f"{name} {text}" not in known:
            known[f"{name} {text}"] = instructions(called(rds, timed, text), inputs.file(name))
    share = 100 * known[f"{name} {these}"] // known[f"{name} {those}"]
    assert int(most) * 4 // 5 <= share <= int(most)


def test_a_million_gaps(timed: str, inputs: Inputs) -> None:
    """Over the whole stream, in as many calls as for fewer gaps, since each looks at all; and at each call for a few bytes."""
    grows_as_its_input(
        lambda size: [timed, *of_size("push CHUNK COUNT", size)], lambda size: inputs.file(f"station.{size}")
    )


def test_a_million_gaps_beside_a_look(timed: str, inputs: Inputs) -> None:
    these, those = "push 64 1000000", "look 64 1000000"
    beside(inputs.file("station.few"), 4, [timed, *these.split()], [timed, *those.split()])


# ---- forms of one task, by rds_bench

# The least percent of the time of the fast form that the slow one takes.
PAIRS = """
250 : places : scan : hiss.4
250 : places : windows : hiss.4
200 : divided : places : hiss.4
150 : items : guess : station.4
150 : items : guess : one_in_250.4
150 : items : guess : one_in_42.4
150 : items : guess : one_in_12.4
150 : items : guess : one_in_4.4
100 : items 1 : guess 1 : worst.4
"""


def nanoseconds(bench: str, form: str, path: Path) -> tuple[int, int]:
    """The time of a form, and its count."""
    spent = spend([bench, *form.split()], path)
    answer = spent.out.split() if spent.time < float("inf") else []
    is_answer = len(answer) == 2 and all(word.isdigit() and word[:1] != b"0" for word in answer)
    assert is_answer, f"{form}: no time and count"
    return int(answer[0]), int(answer[1])


@pytest.mark.parametrize("percent, slow, fast, name", rows_of(PAIRS))
def test_forms(rds_bench: str, inputs: Inputs, percent: str, slow: str, fast: str, name: str) -> None:
    """Both find the same count, and the slow one takes its share of the fast one's time."""
    path, told = inputs.file(name), ""
    for _ in range(TURNS):
        (slow_time, slow_count), (fast_time, fast_count) = (
            nanoseconds(rds_bench, form, path) for form in (slow, fast)
        )
        assert slow_count == fast_count, f"{slow} finds {slow_count}, and {fast} {fast_count}"
        if 100 * slow_time >= int(percent) * fast_time:
            return
        told = f"{slow_time} ns, less than {percent} % of the {fast_time} ns of {fast}"
    pytest.fail(told, pytrace=False)


BENCH = [
    f"{name} {form}"
    for form in ("scan", "windows", "report", "guess", "items")
    for name in ("station", "losing", "hiss")
]
BENCH += [f"worst {form} 1" for form in ("scan", "windows", "report", "guess", "items")]


@pytest.mark.parametrize("job", BENCH)
def test_growth_of_forms(rds_bench: str, inputs: Inputs, job: str) -> None:
    name, *form = job.split()
    for size in SIZES:
        nanoseconds(rds_bench, " ".join(form), inputs.file(f"{name}.{size}"))
    grows_as_its_input(lambda size: [rds_bench, *form], lambda size: inputs.file(f"{name}.{size}"))
