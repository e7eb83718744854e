"""Listings that are made for tests, and the command in this process."""

from __future__ import annotations

import io
import os
import pty
import subprocess
import sys
from typing import Any, Iterable, List, NamedTuple, Optional, Sequence
from unittest import mock

import numpy

from rds_monitor import cli
from rds_monitor.rows.items import ACQUIRED, CORRECTED, GROUP, ITEM, LOSS, LOST, VALID, Reading, Rows
from rds_monitor.rows.items import totals_of
from rds_monitor.rows.listing import Listing, text_of, totals_text
from rds_monitor.rows.parse import set_types

BLOCK_OFFSETS = (1, 2, 3, 5)


def damaged(data: bytes, rate: float, seed: int) -> bytes:
    """The bits, of which each is inverted at this rate."""
    inverted = numpy.random.default_rng(seed).random(8 * len(data)) < rate
    return (numpy.frombuffer(data, "u1") ^ numpy.packbits(inverted)).tobytes()


def symbols(data: bytes, noise: float, seed: int = 1) -> bytes:
    """Of the bits, as they are received with an amplitude of 1 and this noise: signed bytes, one more than bits."""
    signs = numpy.bitwise_xor.accumulate(numpy.unpackbits(numpy.frombuffer(b"\0" + data, "u1"))[7:])
    heard = 2.0 * signs - 1 + noise * numpy.random.default_rng(seed).standard_normal(signs.size)
    sizes = numpy.clip(16 * 2 * abs(heard) / noise**2, 1, 127)
    return (numpy.sign(heard) * sizes).astype("i1").tobytes()


def block(row: Any, number: int, word: Optional[int], burst: int = 0) -> None:
    """Sets a block of a row: valid, corrected with a burst, or without a word uncorrectable."""
    row[f"kind{number}"] = LOST if word is None else CORRECTED if burst else VALID
    if word is not None:
        for name, value in (("info", word), ("burst", burst), ("offset", BLOCK_OFFSETS[number - 1])):
            row[f"{name}{number}"] = value


def row_of(what: int, place: int, number: int = 0) -> Rows:
    rows = numpy.zeros(1, ITEM)
    rows["what"], rows["place"], rows["number"] = what, place, number
    return rows


def group_row(place: int, words: Sequence[Optional[int]], first: int = 1, prime: bool = False) -> Rows:
    """A group whose blocks from `first` on were read; with `prime` block 3 has offset C'."""
    rows = row_of(GROUP, place)
    for number, word in enumerate(words, first):
        block(rows[0], number, word)
    if prime and rows["kind3"][0] >= VALID:
        rows["offset3"] = 4
    set_types(rows)
    return rows


def acquired_row(place: int, number: int) -> Rows:
    return row_of(ACQUIRED, place, number)


def loss_row(place: int) -> Rows:
    return row_of(LOSS, place)


def lock(begin: int, groups: Sequence[Sequence[Optional[int]]], lost: bool = True) -> List[Rows]:
    """Sync from the position of a first bit on: whole groups of four words each, and the loss."""
    rows = [acquired_row(begin + 25, 1)]
    rows += [group_row(begin + 104 * n, words) for n, words in enumerate(groups)]
    return rows + ([loss_row(begin + 104 * len(groups) - 1)] if lost else [])


def joined(rows: Iterable[Rows]) -> Rows:
    return numpy.concatenate([numpy.zeros(0, ITEM), *rows])


def listing(rows: Iterable[Rows], totals: bool = True) -> bytes:
    """The text of rows, with their totals."""
    whole = joined(rows)
    return text_of(whole) + (totals_text(totals_of(whole)) if totals else b"")


def read(text: bytes, **options: Any) -> Rows:
    """The rows of a listing."""
    return joined(Listing(io.BytesIO(text), b"", Reading(**options)).chunks())


def split(words: Sequence[Any]) -> List[Any]:
    """Texts that have an option in front as several words; paths, names and other values as they are."""
    return [one for word in words for one in (word.split() if str(word)[:1] == "-" else [word])]


class Done(NamedTuple):
    status: int
    out: str
    err: str


def run(*words: Any, data: bytes = b"") -> Done:
    """A command, in this process."""
    streams = [io.TextIOWrapper(io.BytesIO(given), "utf-8", write_through=True) for given in (data, b"", b"")]
    with mock.patch.multiple(sys, stdin=streams[0], stdout=streams[1], stderr=streams[2]), mock.patch(
        "signal.signal"
    ):
        try:
            status = cli.main([str(word) for word in words])
        except SystemExit as end:
            status = end.code if isinstance(end.code, int) else 1
    out, err = (stream.detach().getvalue().decode() for stream in streams[1:])
    return Done(status, out, err)


def output(*words: Any, data: bytes = b"") -> str:
    """What a command that succeeds writes."""
    done = run(*words, data=data)
    assert done.status == 0, done.err
    return done.out


def said(*words: Any, data: bytes = b"") -> List[str]:
    """The same as lines."""
    return output(*words, data=data).splitlines()


def on_a_terminal(*words: str) -> bytes:
    """Standard error of a command, where that is a terminal."""
    ours, theirs = pty.openpty()
    process = subprocess.Popen([sys.executable, *words], stdout=subprocess.DEVNULL, stderr=theirs)
    os.close(theirs)
    said = b""
    try:
        while True:
            said += os.read(ours, 65536)
    except OSError:
        pass
    os.close(ours)
    assert process.wait() == 0
    return said


def peak_memory(*words: str, data: bytes) -> int:
    """The most memory of a process of the command, in kB."""
    code = (
        "import sys; from rds_monitor.cli import main; main(sys.argv[1:]); "
        "(peak,) = [line.split()[1] for line in open('/proc/self/status') if line.startswith('VmHWM')]; "
        "print(peak, file=sys.stderr)"
    )
    done = subprocess.run([sys.executable, "-c", code, *words], input=data, capture_output=True)
    return int(done.stderr.splitlines()[-1])
