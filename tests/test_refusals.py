"""Each allocation, read, write and start of a thread of some jobs is refused in turn, and then that one and all after it.

The answer has to be the job's own, or the error with nothing written. If a write is refused, a prefix of the text may be written; if a
stream is followed, its first rows, each whole. If a thread is not started, the job goes on without it, and the answer is the job's own.
refuse.c refuses the calls.
"""

from __future__ import annotations

import itertools
import os
import subprocess
from pathlib import Path
from typing import Any, Callable, Iterator, NamedTuple

import numpy as np
import pytest
from inputs import make_refuse
from plain_soft import random_symbols
from running import LIMIT, TOP, Ran, wrote

Cases = Callable[[int], None]
KINDS = ["alloc", "read", "write", "thread"]
ZERO = b"00003f000019800005a00001b4"
ZERO_BYTES = bytes.fromhex(ZERO.decode())
STATION = (TOP / "examples" / "station.bin").read_bytes()
LINES = b"1234 2540 5244 5320\n0000 0800 0000 0000\n"
# of which one in twenty is wrong, so that each of two reads has work for three workers
SYMBOLS = random_symbols(np.random.default_rng(3), STATION[:12000], 12)


class Job(NamedTuple):
    """A job by its words and its input, and how many threads it starts at least."""

    words: str
    given: bytes
    threads: int = 0


JOBS = [
    Job("follow --burst 0", ZERO_BYTES[:10]),
    # rows by three workers, each of which has 128 KiB at least; a worker more for the second piece
    Job("scan --workers 3", 16 * STATION, 2),
    Job("list --pieces 2 --workers 3", 16 * STATION, 3),
    # a stream of three reads and the end
    Job("follow", 9 * STATION),
    Job("scan --hex", ZERO),
    Job("list --hex --pieces 1 --workers 1", ZERO),
    Job("list --hex --pieces 2 --workers 2", ZERO + b"00003f000019800025a00001b4"),
    Job("totals --hex --pieces 16 --workers 4", ZERO + b"00003f000019800025a00001b4"),
    # totals that one worker counts over three reads and the end, and over digits
    Job("totals --workers 1", 9 * STATION),
    # and by three workers, two of which begin with a guess
    Job("totals --workers 3 --gaps 1000000-1000001", 16 * STATION, 2),
    Job("totals --hex --bits 101 --gaps 1-2,99-101 --workers 1", ZERO),
    # a group of version B, and a burst of five bits
    Job("list --hex", b"00003f02002c10000d400001b4"),
    Job("list --hex --burst 5 --pieces 1", b"00003f000019800005a00001a5"),
    # two groups with a cut between them; two bad blocks of three lose the lock; a block that touches a gap
    Job("list --hex --pieces 2 --workers 2", 2 * ZERO),
    Job("list --hex --share 2 --of 3 --pieces 2 --workers 2", ZERO + b"000037400019800005240001b4"),
    Job("list --hex --gaps 104-105 --pieces 2 --workers 2", 2 * ZERO),
    Job("scan --hex --gaps 104-105,110-111", 2 * ZERO),
    # three levels of joins by three workers
    Job("list --pieces 8 --workers 3", 16 * STATION, 5),
    Job("encode --hex", b"0000 0000 0000 0000\n"),
    Job("encode", b"1234 2540 5244 5320\n   \n\n0000080000000000"),
    # two groups encoded as digits, and the list of these
    Job("encode --hex", LINES),
    Job("list --hex --pieces 2 --workers 2", b"12341a89501ac52449594c83fb\n00003f02002c10000d400001b4\n"),
    # a stream that ends in a byte, with a gap in its last block
    Job("follow --bits 101 --gaps 1-2,99-101", ZERO_BYTES),
    # symbols whose groups are read again by three workers, and by one; and a stream of three reads and the end
    Job("list --soft --workers 3", SYMBOLS, 2),
    Job("totals --soft --workers 1 --gaps 1000-1001", SYMBOLS),
    Job("follow --soft", SYMBOLS[:12000]),
]


@pytest.fixture(scope="session")
def refuse(tmp_path_factory: pytest.TempPathFactory) -> Path:
    """The library that refuses and counts calls."""
    return make_refuse(tmp_path_factory.mktemp("refuse"))


class Refusing:
    """Runs of a job with calls refused."""

    def __init__(self, refuse: Path, folder: Path, program: str, given: bytes) -> None:
        self.folder, self.program = folder, program
        (folder / "in").write_bytes(given)
        names = {"LD_PRELOAD": str(refuse), "REFUSE_COUNT": str(folder / "count"), "LIMIT": str(LIMIT)}
        self.variables = {**os.environ, **names}

    def run(self, words: list[str], kind: str, at: int, is_on: bool = False) -> Ran:
        """The program with its call `at` of a kind refused, and all after it too if `is_on`."""
        chosen = {"REFUSE_CALL": kind, "REFUSE_AT": str(at)} | ({"REFUSE_ON": "1"} if is_on else {})
        out, err = self.folder / "out", self.folder / "err"
        with (self.folder / "in").open() as given, out.open("wb") as to, err.open("wb") as told:
            pipes: dict[str, Any] = {"stdin": given, "stdout": to, "stderr": told, "close_fds": False}
            ended = subprocess.run([self.program, *words], env={**self.variables, **chosen}, **pipes)
        return Ran(ended.returncode, out.read_bytes(), err.read_bytes())

    def calls(self, words: list[str], kind: str) -> int:
        """How many such calls a job makes."""
        self.run(words, kind, 0)
        counts = dict(line.split() for line in (self.folder / "count").read_text().splitlines())
        return int(counts[kind])


NAMES = {"alloc": "8 OutOfMemory", "read": "9 Read", "write": "10 Write"}


def is_right(kind: str, ended: Ran, wanted: bytes, is_stream: bool) -> bool:
    """Whether an answer is allowed, with a call of that kind refused."""
    if kind == "thread" or kind == "alloc" and ended == (0, wanted, b""):
        return ended == (0, wanted, b"")
    is_prefix, is_row = wanted.startswith(ended.out), ended.out[-1:] in (b"", b"\n")
    is_left = is_prefix if kind == "write" else is_prefix and is_row if is_stream else not ended.out
    return is_left and (ended.status, ended.err) == (1, f"refused {NAMES[kind]}\n".encode())


def each_call(job: Refusing, words: list[str], kind: str) -> Iterator[tuple[str, Ran]]:
    """Refuses each call of a kind in turn, alone and with all after it: what was refused, and the answer."""
    for at, is_on in itertools.product(range(1, job.calls(words, kind) + 1), (False, True)):
        yield f"{kind} {at}{', and all after it' * is_on}", job.run(words, kind, at, is_on)


@pytest.mark.parametrize("kind", KINDS)
@pytest.mark.parametrize("job", JOBS, ids=[f"{number}-{job.words}" for number, job in enumerate(JOBS)])
def test_refused(rds: str, refuse: Path, tmp_path: Path, job: Job, kind: str, cases: Cases) -> None:
    refusing, words = Refusing(refuse, tmp_path, rds, job.given), job.words.split()
    wanted = wrote(rds, *words, data=job.given)
    if kind == "thread" and job.threads:
        assert refusing.calls(words, kind) >= job.threads
    tried = 0
    for refused, ended in each_call(refusing, words, kind):
        assert is_right(kind, ended, wanted, words[0] == "follow"), f"{refused} refused: {ended}"
        tried += 1
    assert tried or kind == "thread"
    cases(tried)


def test_list_by_one_worker_starts_no_thread(rds: str, refuse: Path, tmp_path: Path) -> None:
    job = Refusing(refuse, tmp_path, rds, 7 * STATION)
    assert job.calls("list --pieces 2 --workers 1".split(), "thread") == 0
