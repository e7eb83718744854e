"""Block errors by interval: the command `errors`. What was sent is counted by the clock, whether or not there are groups."""

import argparse
from typing import Any, Iterator, List, NamedTuple

import numpy

from ..rows.clock import clock_of, clock_options, number_of
from ..rows.extent import Extent, write_table
from ..rows.inputs import input_options, open_input
from ..rows.items import BLOCK_BITS, CORRECTED, GROUP_BITS, LOST, VALID, Rows
from ..rows.listing import groups_in, kinds_of, places_of


class Interval(NamedTuple):
    """Blocks of an interval: those sent by the clock, and of these those valid, corrected, uncorrectable and not read."""

    begin: float
    end: float
    sent: int
    valid: int
    corrected: int
    lost: int
    missing: int

    @property
    def bad_percent(self) -> float:
        return 100 * (self.sent - self.valid) / self.sent if self.sent else 0.0

    def counts(self, is_soft: bool) -> List[Any]:
        """The cells of a table's row. Soft decisions take the place of corrected bursts, and have a column of their own."""
        corrected = [0, self.corrected] if is_soft else [self.corrected]
        return [self.sent, self.valid, *corrected, self.lost, self.missing, f"{self.bad_percent:.2f}"]


class Errors:
    """Blocks by intervals of `bits` bits, from the interval of number `first` on. A block belongs to the interval of its first bit."""

    def __init__(self, bits: float, first: int = 0):
        self.bits, self._first = bits, first
        # Of each interval: where its last block ends, and its blocks by their outcome.
        self._table: Rows = numpy.zeros((0, 4), "i8")

    def _grow(self, count: int) -> None:
        if count > len(self._table):
            more = max(count, 2 * len(self._table)) - len(self._table)
            self._table = numpy.concatenate([self._table, numpy.zeros((more, 4), "i8")])

    def add(self, rows: Rows) -> None:
        groups = groups_in(rows)
        if not len(groups):
            return
        edges = groups["place"][0], groups["place"][-1] + GROUP_BITS
        first, after = (max(int(place / self.bits) - self._first, 0) for place in edges)
        after += 1
        self._grow(after)
        kinds, cuts = kinds_of(groups).reshape(-1), self._cuts(groups, first, after)
        read = numpy.flatnonzero(kinds)
        # The last block that was read before the end of each interval, perhaps of an interval before; if there is none, one after it.
        last = read[numpy.searchsorted(read, cuts[1:]) - 1]
        heard = numpy.flatnonzero((last >= cuts[:-1]) & (last < cuts[1:]))
        last, table = last[heard], self._table[first:after]
        table[heard, 0] = places_of(groups[last // 4])[numpy.arange(len(last)), last % 4] + BLOCK_BITS
        for column, kind in enumerate((LOST, VALID, CORRECTED), 1):
            # In the intervals between two of these no block was read.
            table[heard, column] += numpy.add.reduceat(kinds == kind, cuts[heard], dtype="i4")

    def _cuts(self, groups: Rows, first: int, after: int) -> Rows:
        """How many of the groups' blocks come before each of these intervals, and how many there are."""
        edges = self.bits * (self._first + numpy.arange(first + 1, after))
        # The group before an edge may have blocks after it.
        group = numpy.maximum(numpy.searchsorted(groups["place"], edges) - 1, 0)
        blocks = numpy.ceil((edges - places_of(groups[group])[:, 0]) / BLOCK_BITS)
        within = 4 * group + numpy.clip(blocks, 0, 4).astype("i8")
        return numpy.concatenate([[0], within, [4 * len(groups)]])

    def row(self, number: int) -> List[int]:
        """Of an interval: where its last block ends, and how many are uncorrectable, valid, and corrected."""
        self._grow(number - self._first + 1)
        row: List[int] = self._table[number - self._first].tolist()
        return row

    def intervals(self, begin: int, end: int) -> Iterator[Interval]:
        counter = IntervalCounter(self, begin)
        while counter.at * self.bits < end:
            yield counter.upto(end)


class IntervalCounter:
    """The intervals from a position on, one after the other.

    Bits up to an interval's end that are of no block that was read were sent as well: the whole blocks among them, less those
    of the intervals before, are missing in this one. So the parts add up to what was sent, and all that was sent to the bits.
    """

    def __init__(self, errors: Errors, begin: int):
        self._errors, self._begin, self.at = errors, begin, int(begin / errors.bits)
        self._known = self._read = self._through = 0

    def upto(self, end: float) -> Interval:
        """The next interval, or its part before this position."""
        begin, after = self.at * self._errors.bits, min((self.at + 1) * self._errors.bits, end)
        ends, lost, valid, corrected = self._errors.row(self.at)
        read = lost + valid + corrected
        self._read += read
        self._through = max(self._through, ends)
        gone = after - self._begin - BLOCK_BITS * self._read + max(0, self._through - after)
        missing = max(0, int(gone / BLOCK_BITS) - self._known)
        self._known += missing
        self.at += 1
        return Interval(max(self._begin, begin), after, read + missing, valid, corrected, lost, missing)


def interval_of(text: str) -> float:
    seconds = number_of(text)
    if seconds < 1:
        raise argparse.ArgumentTypeError("an interval has a second or more")
    return seconds


def digits_of(seconds: float) -> int:
    """How many decimals the times of intervals of this length have."""
    return 0 if seconds == int(seconds) else 3


def options_errors(parser: argparse.ArgumentParser) -> None:
    """Block errors over time, as CSV: per interval the blocks sent by the clock, those valid, corrected, uncorrectable (lost) and sent
    while there was no sync (no_sync), and how many per cent of those sent are not valid. Blocks corrected by soft decisions have a column
    of their own (soft).

    rds-monitor errors --every 60 --start 2026-03-29T00:30:00Z monday.bin > errors.csv"""
    input_options(parser)
    text = "the length of an interval (60)"
    parser.add_argument("--every", type=interval_of, default=60.0, metavar="SECONDS", help=text)
    clock_options(parser)


def run_errors(arguments: argparse.Namespace) -> int:
    clock = clock_of(arguments)
    errors, extent = Errors(arguments.every * clock.rate), Extent(open_input(arguments))
    for rows in extent.chunks():
        errors.add(rows)
    is_soft, names = extent.is_soft, "begin_s end_s sent valid corrected lost no_sync bad_percent".split()
    lines = (
        [
            *clock.texts(*one[:2], digits=digits_of(arguments.every)),
            *one.counts(is_soft),
            *clock.utc(*one[:2]),
        ]
        for one in errors.intervals(extent.begin, extent.end)
    )
    names[5:5] = ["soft"] if is_soft else []
    return write_table([*names, *clock.names("begin", "end")], lines)
