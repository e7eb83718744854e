"""When no RDS was received: the command `outages`."""

import argparse
import math
from typing import Iterator, List, Optional, Tuple

import numpy

from ..rows.clock import clock_of, clock_options, number_of
from ..rows.extent import Extent, write_table
from ..rows.inputs import input_options, open_input
from ..rows.items import BLOCK_BITS, VALID, Rows
from ..rows.listing import groups_in, kinds_of, places_of


class Outages:
    """Stretches of `least` bits or more in which no valid block counts. One counts if within some second it is one of
    `needed` valid ones: noise gives some that are alone."""

    def __init__(self, rate: float, share: float, shortest: float):
        self._second, self._least = rate, shortest * rate
        self._needed = max(1, math.ceil(share / 100 * rate / BLOCK_BITS))
        # The last valid blocks, of which it is not known yet whether they count, and whether they do by those before.
        self._open: Rows = numpy.zeros(0, "i8")
        self._counts: Rows = numpy.zeros(0, bool)
        self.end: Optional[int] = None

    def add(self, rows: Rows) -> List[Tuple[int, int]]:
        """The outages that end within these rows, from position to position."""
        groups = groups_in(rows)
        valid, every = kinds_of(groups) == VALID, places_of(groups)
        places = numpy.concatenate([self._open, every.reshape(-1) if valid.all() else every[valid]])
        # Of each `needed` in a row, whether they are within a second.
        first = places[: max(0, len(places) - self._needed + 1)]
        dense = places[self._needed - 1 :] - first <= self._second - BLOCK_BITS
        if len(dense) and dense.all() and self._needed > 1 and self._least >= self._second:
            # All count, and none is as far from the next.
            self._open, self._counts = places[len(first) :], numpy.ones(self._needed - 1, bool)
            found = self._between(first[:1])
            self.end = int(first[-1]) + BLOCK_BITS
            return found
        counts = numpy.zeros(len(places), bool)
        counts[: len(self._counts)] = self._counts
        for shift in range(self._needed):
            counts[shift : shift + len(dense)] |= dense
        # A later block may still make the last ones count.
        keep = len(first)
        self._open, self._counts = places[keep:], counts[keep:]
        return self._between(first[counts[:keep]])

    def close(self, end: int) -> List[Tuple[int, int]]:
        found = self._between(self._open[self._counts])
        begin = self.end or 0
        return found + ([(begin, end)] if end > begin and end - begin >= self._least else [])

    def begin(self, place: int) -> None:
        """The recording begins at this position."""
        if self.end is None:
            self.end = place

    def _between(self, places: Rows) -> List[Tuple[int, int]]:
        """The outages before and between blocks that count."""
        if not len(places):
            return []
        begins = numpy.concatenate([[self.end or 0], places[:-1] + BLOCK_BITS])
        self.end = int(places[-1]) + BLOCK_BITS
        far = places - begins >= max(self._least, 1)
        return list(zip(begins[far].tolist(), places[far].tolist()))


def share_of(text: str) -> float:
    share = number_of(text)
    if share > 100:
        raise argparse.ArgumentTypeError("it takes up to 100 per cent")
    return share


def options_outages(parser: argparse.ArgumentParser) -> None:
    """When no RDS was received (the carrier may be up), as CSV: stretches in which no valid block counts. A valid block counts if within
    some second it is one of at least --density per cent of the blocks sent.

    rds-monitor outages --shortest 2 monday.bin"""
    input_options(parser)
    of_density, of_shortest = "of the blocks sent in a second (10)", "the shortest outage told (1)"
    parser.add_argument("--density", type=share_of, default=10.0, metavar="PERCENT", help=of_density)
    parser.add_argument("--shortest", type=number_of, default=1.0, metavar="SECONDS", help=of_shortest)
    clock_options(parser)


def run_outages(arguments: argparse.Namespace) -> int:
    clock, extent = clock_of(arguments), Extent(open_input(arguments))
    names = "begin_s end_s length_s begin_bit end_bit".split()
    found = outages_in(extent, Outages(clock.rate, arguments.density, arguments.shortest))
    rows = ([*clock.texts(*ends, ends[1] - ends[0]), *ends, *clock.utc(*ends)] for ends in found)
    return write_table([*names, *clock.names("begin", "end")], rows)


def outages_in(extent: Extent, outages: Outages) -> Iterator[Tuple[int, int]]:
    for rows in extent.chunks():
        outages.begin(extent.begin)
        yield from outages.add(rows)
    yield from outages.close(extent.end)
