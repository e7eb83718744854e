"""The numbers that `rds --progress` tells, computed anew.

Rows go to a slow reader, which looks for lines between its reads. So the megabytes, the share of the bits and the seconds left are known but
for what the pipe holds. Noise after a station makes the share of the bits another than that of the text. The input is late, the program is
stopped while it decodes, and the reader begins late: the time counts from the first write. Totals are stopped and continued, so that lines
come while pieces are decoded. Lines come twice a second at most, and each is erased. A trial has failed if three attempts did.
"""

from __future__ import annotations

import os
import random
import re
import select
import signal
import subprocess
import threading
import time
from typing import Callable, Iterator

import pytest
import worst_inputs
from running import LIMIT, TOP, wrote

ATTEMPTS = 3
# The bytes that the pipe holds, and the seconds from a look at the clock to its line, as others may have the processor.
HELD = 65536
LATE = 0.1
# The least seconds between two lines, and those by which input and reader are late.
PAUSE = 0.5
WAIT = 1.2
# The seconds between two looks of a reader, and how many looks there are from a line to the next at most, as a write takes up to three.
LOOK = 0.05
LOOKS = 15
PIECES = 24
ROWS = re.compile(r"written (\d+) MB, rows of (\d+) % of the bits, (\d+) s left")
DECODED = re.compile(r"decoded (\d+) of (\d+) pieces, (\d+) s left")


class Job:
    """A run with --progress: its output, and each look at its progress line, with the bytes read by then."""

    def __init__(self, rds: str, words: list[str], held: bytes) -> None:
        self.text, self.said = b"", b""
        self.looks = [(0, 0.0, 0)]
        pipe = subprocess.PIPE
        self.child = subprocess.Popen([rds, *words, "--progress"], stdin=pipe, stdout=pipe, stderr=pipe)
        assert self.child.stdin and self.child.stdout and self.child.stderr
        self.out, self.err = self.child.stdout.fileno(), self.child.stderr.fileno()
        self.end = threading.Timer(LIMIT, self.child.kill)
        self.end.start()
        os.set_blocking(self.err, False)
        time.sleep(WAIT)
        try:
            self.child.stdin.write(held)
            self.child.stdin.close()
        except BrokenPipeError:
            pass
        self.handed = time.monotonic()

    def look(self) -> None:
        """Notes the text written since the last look."""
        try:
            self.said += os.read(self.err, 65536)
        except BlockingIOError:
            pass
        self.looks.append((len(self.said), time.monotonic(), len(self.text)))

    def stop(self, seconds: float) -> None:
        """Stops the program for a while."""
        self.child.send_signal(signal.SIGSTOP)
        time.sleep(seconds)
        self.child.send_signal(signal.SIGCONT)

    def has_written(self, seconds: float) -> bool:
        """Whether there is something to read, within a time limit."""
        return bool(select.select([self.out], [], [], seconds)[0])

    def read(self, pause: float) -> None:
        """Reads all output, and waits and looks before each read."""
        part = b"some"
        while part:
            time.sleep(pause)
            self.look()
            part = os.read(self.out, 65536)
            self.text += part

    def close(self) -> int:
        """How it ended."""
        status = self.child.wait()
        self.end.cancel()
        while part := os.read(self.err, 65536):
            self.said += part
        self.looks.append((len(self.said), time.monotonic(), len(self.text)))
        return status

    def lines(self) -> Iterator[tuple[str, int]]:
        """Each line, with the number of the look that found it."""
        for line in re.finditer(rb"[^\r ][^\r]*", self.said):
            yield line[0].decode(), next(k for k, look in enumerate(self.looks) if look[0] >= line.end())

    def seen(self, k: int) -> tuple[float, float, int, int]:
        """The times and the bytes read between which look k found its line."""
        (_, earlier, before), (_, later, after) = self.looks[k - 1 : k + 1]
        return earlier, later, before, after

    def faults(self) -> Iterator[str]:
        """Lines that came too early, are of no known form, or were not erased."""
        told = list(self.lines())
        for number, (line, k) in enumerate(told):
            spans = [
                self.looks[k][1] - self.seen(told[first][1])[0] + LATE - PAUSE * (number - first)
                for first in range(number)
            ]
            if min(spans, default=0) < 0 or not (ROWS.fullmatch(line) or DECODED.fullmatch(line)):
                yield f"{line}: as line {number} of {[(text, self.seen(at)[:2]) for text, at in told]}"
        parts = self.said.decode().split("\r")
        if self.said and (len(parts) % 2 == 0 or parts[0] or parts[-1]):
            yield f"no line at the end: {parts}"
        for line, blanks in zip(parts[2::2], parts[3::2]):
            if blanks.strip() or len(blanks) < len(line):
                yield f"{line}: erased by {len(blanks)} blanks"


def place_at(text: bytes, at: int) -> int | None:
    """The position of the last whole row within the first bytes; a total has none."""
    row = text[: max(0, text.rfind(b"\n", 0, at))].rpartition(b"\n")[2].split(b",")
    field = row[0] if row[0].isdigit() else (row + [b""])[1]
    return int(field) if field.isdigit() else None


def lefts(spent: tuple[float, float], least: int, most: int, whole: int) -> range:
    """The seconds that may be left, with from least to most of the whole done, in from the first to the second time."""
    first, last = (int(max(time, 0) * (whole - done) / done) for time, done in zip(spent, (most, least)))
    return range(first, last + 1)


def rows_faults(job: Job, bits: int, first: float, last: float) -> Iterator[str]:
    """The faults of lines on rows, if the first write began between two times."""
    found = 0
    shares_told: set[int] = set()
    for line, k in job.lines():
        earlier, later, before, after = job.seen(k)
        # the last rows are totals, which have no place
        if not (told := ROWS.fullmatch(line)) or after + HELD >= len(job.text):
            continue
        megabytes, share, seconds = map(int, told.groups())
        least, most = place_at(job.text, before) or 1, place_at(job.text, after + HELD) or bits
        shares = range(100 * least // bits, 100 * most // bits + 1)
        left = lefts((earlier - last - LATE, later - first), least, most, bits)
        is_read = before // 10**6 <= megabytes <= (after + HELD) // 10**6
        if not is_read or share not in shares or seconds not in left:
            yield f"{line}: after {before} to {after} bytes and {later - first:.2f} s it may be {shares} % and {left} s"
        if shares_told and k - found > LOOKS:
            yield f"{line}: {k - found} looks after the line before it"
        found = k
        shares_told.add(share)
    if len(shares_told) < 3:
        yield f"too few lines: {job.said!r}"


def pieces_faults(job: Job) -> Iterator[str]:
    """The faults of lines on pieces: those that were asked for, those done grow, and the seconds are at the pace so far."""
    before = 0
    counts = set()
    for line, k in job.lines():
        if not (told := DECODED.fullmatch(line)):
            continue
        done, pieces, seconds = map(int, told.groups())
        earlier, later = job.seen(k)[:2]
        left = lefts((earlier - job.handed - LATE, later - job.handed), done, done, PIECES) if done else ()
        if pieces != PIECES or not before <= done <= PIECES or seconds not in left:
            yield f"{line}: after {later - job.handed:.2f} s and {before} pieces it may be {left} s"
        before = done
        counts.add(done)
    if len(counts) < 3:
        yield f"too few lines: {job.said!r}"


def late_noise() -> bytes:
    station = (TOP / "examples" / "station.bin").read_bytes()
    return 50 * station + random.Random(1).randbytes(50 * len(station))


def try_rows(rds: str, words: str = "list --workers 2") -> list[str]:
    """Rows to a slow reader, of a program that was stopped before the first."""
    noise = late_noise()
    bits = int(found[1]) if (found := re.search(r"--bits (\d+)", words)) else 8 * len(noise)
    held = noise.hex().encode() if "--hex" in words else noise
    job = Job(rds, words.split(), held)
    time.sleep(0.02)
    job.child.send_signal(signal.SIGSTOP)
    time.sleep(WAIT)
    first = job.handed if job.has_written(0) else time.monotonic()
    job.child.send_signal(signal.SIGCONT)
    job.has_written(LIMIT)
    last = time.monotonic()
    time.sleep(WAIT)
    job.read(LOOK)
    is_same = job.close() == 0 and wrote(rds, *words.split(), data=held) == job.text
    return [*rows_faults(job, bits, first, last), *job.faults(), *([] if is_same else ["another text"])]


def try_pieces(rds: str) -> list[str]:
    """Totals that are stopped for half a second, again and again."""
    held = worst_inputs.recording("short_locks", 6000000)
    job = Job(rds, f"totals --loss 1 --reach 8 --pieces {PIECES} --workers 1".split(), held)
    while job.child.poll() is None:
        time.sleep(0.02)
        job.look()
        job.stop(0.55)
    job.read(0)
    is_whole = job.close() == 0 and job.text.count(b"total,") == 12
    return [*pieces_faults(job), *job.faults(), *([] if is_whole else ["another text"])]


TRIALS: list[Callable[[str], list[str]]] = [
    try_rows,
    lambda rds: try_rows(rds, "list --workers 1 --bits 12500000"),
    lambda rds: try_rows(rds, "scan --hex --workers 1"),
    try_pieces,
]


@pytest.mark.parametrize("trial", TRIALS)
def test_progress(rds: str, trial: Callable[[str], list[str]], request: pytest.FixtureRequest) -> None:
    attempts = 1 if request.config.option.maxfail else ATTEMPTS
    faults: list[str] = []
    for _ in range(attempts):
        faults = trial(rds)
        if not faults:
            return
    pytest.fail("\n".join(faults), pytrace=False)
