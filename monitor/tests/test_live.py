"""Pipes that give a group at a time: when each row is there, and what is said while there is no sync."""

from __future__ import annotations

import io
import os
import select
import statistics
import subprocess
import time
from typing import Any, List

import numpy
import pytest

from conftest import COMMAND, PROGRAM, encode
from made import output, symbols
from rds_monitor.rows import pipe

PIPE = subprocess.PIPE
GROUP = 13  # bytes: the groups of the sample begin with its first bit
FIRST, TIMED = 60, 21


class Chain:
    """The command after `rds follow`, or alone, with a pipe into the first of them."""

    def __init__(self, words: str, follows: bool):
        self._first: List[Any] = (
            [subprocess.Popen([PROGRAM, "follow"], stdin=PIPE, stdout=PIPE)] if follows else []
        )
        stdin = self._first[0].stdout if follows else PIPE
        self._last = subprocess.Popen(
            [*COMMAND, *words.split()], stdin=stdin, stdout=PIPE, stderr=PIPE, bufsize=0
        )
        self._into = self._first[0].stdin if follows else self._last.stdin

    def send(self, data: bytes) -> None:
        self._into.write(data)
        self._into.flush()

    def reads(self, seconds: float) -> bytes:
        """What comes on standard output within this time, which ends with the first of it."""
        assert self._last.stdout
        ready = select.select([self._last.stdout], [], [], seconds)[0]
        return os.read(self._last.stdout.fileno(), 1 << 16) if ready else b""

    def says(self, seconds: float) -> str:
        """What comes on standard error within this time."""
        assert self._last.stderr
        ready = select.select([self._last.stderr], [], [], seconds)[0]
        return os.read(self._last.stderr.fileno(), 1 << 16).decode() if ready else ""

    def end(self) -> str:
        """What is left of standard error."""
        self._into.close()
        assert self._last.stdout and self._last.stderr
        said = (self._last.stdout.read(), self._last.stderr.read())[1].decode()
        assert [one.wait() for one in (*self._first, self._last)] == [0] * (len(self._first) + 1)
        return said


def delays(chain: Chain, station: bytes) -> List[float]:
    """Seconds from the last bit of a group to its row, once rows come."""
    chain.send(station[: FIRST * GROUP])
    got, found = 0, []
    while got < FIRST - 1:
        more = chain.reads(20).count(b"\n")
        assert more, got
        got += more
    while chain.reads(0.3):
        pass
    for number in range(FIRST, FIRST + TIMED):
        chain.send(station[number * GROUP : (number + 1) * GROUP])
        began = time.monotonic()
        assert chain.reads(20)
        found.append(time.monotonic() - began)
    return found


# A machine that does other work too may take longer.
@pytest.mark.alone
@pytest.mark.parametrize("words", ["json --rows", "json --redsea", "groups", "table"])
def test_rows_through_rds_follow(words: str, station: bytes) -> None:
    chain = Chain(f"{words} --unfinished", follows=True)
    assert statistics.median(delays(chain, station)) < 0.2
    assert chain.end() == ""


def test_bits_of_pack(station: bytes) -> None:
    chain = Chain("pack --from bytes", follows=False)
    for number in range(20):
        packed = station[number * GROUP : (number + 1) * GROUP]
        chain.send(numpy.unpackbits(numpy.frombuffer(packed, "u1")).tobytes())
        assert chain.reads(20) == packed
    assert chain.end() == ""


@pytest.mark.alone
def test_rows_of_bits(decoder: str, station: bytes) -> None:
    chain = Chain("json --rows", follows=False)
    assert statistics.median(delays(chain, station)) < 0.2
    assert chain.end() == "", decoder


@pytest.mark.usefixtures("decoder")
def test_no_sync_is_said_after_two_seconds_and_sync_once(station: bytes) -> None:
    chain, began = Chain("json", follows=False), time.monotonic()
    # Zeros have no valid block.
    chain.send(bytes(200))
    assert chain.says(0.5) == ""
    chain.send(bytes(100))
    assert chain.says(20) == "rds-monitor: no sync yet: 0 valid blocks in 2,400 bits\n"
    assert time.monotonic() - began > 2
    chain.send(bytes(100))
    assert chain.says(0.5) == ""
    # Its first row is that of an acquisition, alone.
    chain.send(station[:8])
    assert chain.says(20).startswith("rds-monitor: sync after ")
    chain.send(station[8:2600])
    assert chain.end() == ""


@pytest.mark.parametrize("soft", [False, True])
def test_blocks_are_counted_until_two_seconds_have_passed(
    soft: bool, monkeypatch: pytest.MonkeyPatch, capsys: pytest.CaptureFixture[str]
) -> None:
    """Ten groups between zeros, as bits, or as symbols of which those below zero are not known."""
    data = bytes(10) + encode([(0xD318, 0x0548, 0xE0CD, 0x4E00 + n) for n in range(10)]) + bytes(10)
    now, bits = [100.0], 8 * len(data)
    if soft:
        data = numpy.maximum(numpy.frombuffer(symbols(data, 0.1), "i1"), 0).tobytes()
    monkeypatch.setattr(pipe.time, "monotonic", lambda: now[0])
    stream = pipe.Pipe(io.BytesIO())
    for at, given, synced, said in (
        (101.999, b"", False, ""),
        (102.0, data, False, f"rds-monitor: no sync yet: 40 valid blocks in {bits:,} bits\n"),
        (103.0, data, False, ""),
        (103.5, data, True, "rds-monitor: sync after 3.5 s\n"),
        (110.0, data, False, ""),
    ):
        now[0] = at
        stream.decode(given, synced, soft)
        assert capsys.readouterr().err == said, at


def test_an_input_is_waited_for_two_seconds(monkeypatch: pytest.MonkeyPatch) -> None:
    """By the clock: what is left of them, or no time."""
    now, waits = [100.0], list[float]()
    monkeypatch.setattr(pipe.time, "monotonic", now.pop)
    monkeypatch.setattr(pipe.select, "select", lambda *given: (waits.append(given[3]), ([], [], []))[1])
    for at in (100.5, 103.0):
        now[:] = [at, 100.0]
        assert pipe.Pipe(io.BytesIO(b"it")).read(9) == b"it"
    assert waits == [1.5, 0.0]


def test_rows_are_sync(station_listing: bytes, monkeypatch: pytest.MonkeyPatch) -> None:
    """Nothing is waited for but the first of them."""
    waits: List[Any] = []
    monkeypatch.setattr(pipe.select, "select", lambda *given: waits.append(given) or given)
    read, write = os.pipe()
    os.write(write, station_listing[:5000])
    os.close(write)
    assert output("groups", "--unfinished", f"/dev/fd/{read}") and len(waits) == 1


def test_no_input_is_said() -> None:
    chain = Chain("groups --unfinished", follows=True)
    assert chain.says(20) == "rds-monitor: no sync yet: no input\n"
    chain.send(bytes(2600))
    assert chain.end() == ""
