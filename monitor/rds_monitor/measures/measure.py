"""Which PI codes and group types were received, and which blocks were corrected: chunk by chunk, by numpy."""

import argparse
from typing import Any, Dict, Iterator, List, NamedTuple, Optional, Tuple

import numpy

from ..rows.clock import Clock, clock_of, clock_options, number_of, option_type
from ..rows.extent import Extent, write_table
from ..rows.inputs import input_options, open_input
from ..rows.items import BLOCKS, CORRECTED, GROUP, UNKNOWN_TYPE, VALID, Rows, burst_lengths
from ..rows.listing import OFFSET_NAMES, ends_of, groups_in, kinds_of, places_of
from .errors import digits_of, interval_of


class Stretch(NamedTuple):
    """A stretch of groups with one PI code in a valid block 1."""

    pi: int
    groups: int
    begin: int
    end: int


class Programmes:
    """Stretches of at least `least` groups with one PI code. Another one ends a stretch, or more than `pause` bits
    without one. Corrected blocks are passed over, since a miscorrection would look like another station."""

    def __init__(self, least: int, pause: float):
        self._least, self._pause = least, pause
        self._open: Optional[Stretch] = None

    def add(self, rows: Rows) -> List[Stretch]:
        """The stretches that end within these rows."""
        told = numpy.flatnonzero((rows["what"] == GROUP) & (rows["kind1"] == VALID))
        if not len(told):
            return []
        codes, begins = rows["info1"][told], rows["place"][told].astype("i8")
        other = codes[1:] != codes[:-1]
        # A group ends after it begins, so only these may be too far apart.
        cuts = numpy.flatnonzero(other | (begins[1:] - begins[:-1] > self._pause)) + 1
        ends = ends_of(rows[told[cuts - 1]])
        cuts = cuts[other[cuts - 1] | (begins[cuts] > ends + self._pause)]
        edges = [0, *cuts.tolist(), len(told)]
        lasts = ends_of(rows[told[numpy.array(edges[1:]) - 1]]).tolist()
        found = []
        for first, after, last in zip(edges, edges[1:], lasts):
            stretch = Stretch(int(codes[first]), after - first, int(begins[first]), last)
            before = self._open
            if before and before.pi == stretch.pi and stretch.begin <= before.end + self._pause:
                self._open = Stretch(stretch.pi, before.groups + stretch.groups, before.begin, stretch.end)
            else:
                found += self.close()
                self._open = stretch
        return found

    def close(self) -> List[Stretch]:
        """The last stretch, if it is long enough."""
        stretch, self._open = self._open, None
        return [stretch] if stretch and stretch.groups >= self._least else []


count_of = option_type("[0-9]+", int, "is no number of groups")


def options_programmes(parser: argparse.ArgumentParser) -> None:
    """Which PI codes were received and when, as CSV: stretches of groups that have one in a valid block 1.

    rds-monitor programmes --least 10 monday.bin"""
    input_options(parser)
    text = "the shortest stretch told (3): noise gives some of 1"
    parser.add_argument("--least", type=count_of, default=3, metavar="GROUPS", help=text)
    text = "a longer one without the PI ends a stretch (10)"
    parser.add_argument("--pause", type=number_of, default=10.0, metavar="SECONDS", help=text)
    clock_options(parser)


def run_programmes(arguments: argparse.Namespace) -> int:
    clock, extent = clock_of(arguments), Extent(open_input(arguments))
    names = "begin_s end_s pi groups begin_bit end_bit".split()
    found = programmes_in(extent, Programmes(arguments.least, arguments.pause * clock.rate))
    rows = ([*clock.texts(*ends), f"{pi:04X}", count, *ends, *clock.utc(*ends)] for pi, count, *ends in found)
    return write_table([*names, *clock.names("begin", "end")], rows)


def programmes_in(extent: Extent, programmes: Programmes) -> Iterator[Stretch]:
    for rows in extent.chunks():
        yield from programmes.add(rows)
    yield from programmes.close()


TYPES = 17 * 8


def type_index(groups: Rows) -> Rows:
    """Type, version and conflict in one number: types that are not known come last."""
    number = numpy.where(groups["number"] == UNKNOWN_TYPE, 16, groups["number"]).astype("i8")
    index: Rows = number * 8 + groups["version"] * 2 + groups["conflict"]
    return index


def type_names(index: int) -> Tuple[str, str]:
    number, version, conflict = index // 8, index // 2 % 4, index % 2
    return "-" if number == 16 else str(number), "?AB?"[version] + "!" * conflict


class Mix:
    """Groups by type: how many have a valid block 2, how many a corrected one, since a miscorrection gives a type that
    nobody sent, and the positions of the first and the last group."""

    def __init__(self) -> None:
        self.valid, self.corrected = numpy.zeros(TYPES, "i8"), numpy.zeros(TYPES, "i8")
        self.first: Dict[int, int] = {}
        self.last: Dict[int, int] = {}

    def row(self, kind: int) -> Tuple[Any, ...]:
        """Type, version, and how many groups have a valid block 2 and a corrected one."""
        return *type_names(kind), self.valid[kind], self.corrected[kind]

    def add(self, rows: Rows) -> None:
        groups = groups_in(rows)
        if not len(groups):
            return
        index, corrected = type_index(groups), groups["kind2"] == CORRECTED
        of_corrected = numpy.bincount(index[corrected], minlength=TYPES)
        every = numpy.bincount(index, minlength=TYPES)
        self.corrected += of_corrected
        self.valid += every - of_corrected
        for number in numpy.flatnonzero(every).tolist():
            self.first.setdefault(number, int(groups["place"][int((index == number).argmax())]))
            self.last[number] = int(groups["place"][len(index) - 1 - int((index[::-1] == number).argmax())])


def options_types(parser: argparse.ArgumentParser) -> None:
    """Which group types were received, as CSV: groups with a valid block 2, groups with a corrected one, and when the first and the last
    began. Groups with an unknown type have the type -.

    rds-monitor types monday.bin
    rds-monitor types --every 3600 monday.bin > mix.csv"""
    input_options(parser)
    parser.add_argument("--every", type=interval_of, metavar="SECONDS", help="by intervals of this length")
    clock_options(parser)


def run_types(arguments: argparse.Namespace) -> int:
    clock, extent = clock_of(arguments), Extent(open_input(arguments))
    names = "type version groups corrected".split()
    if arguments.every is not None:
        bits = arguments.every * clock.rate
        rows = (
            [
                *clock.texts(begin, begin + bits, digits=digits_of(arguments.every)),
                *mix.row(kind),
                *clock.utc(begin, begin + bits),
            ]
            for begin, mix in mixes_in(extent, bits)
            for kind in sorted(mix.first)
        )
        return write_table(["begin_s", "end_s", *names, *clock.names("begin", "end")], rows)
    mix = Mix()
    for chunk in extent.chunks():
        mix.add(chunk)
    ends = {kind: (mix.first[kind], mix.last[kind]) for kind in sorted(mix.first)}
    lines = ([*mix.row(kind), *clock.texts(*ends[kind]), *clock.utc(*ends[kind])] for kind in ends)
    return write_table([*names, "first_s", "last_s", *clock.names("first", "last")], lines)


def mixes_in(extent: Extent, bits: float) -> Iterator[Tuple[float, Mix]]:
    """The groups by type of each interval that has some, and the position at which it begins."""
    at, mix = -1, Mix()
    for rows in extent.chunks():
        groups = groups_in(rows)
        slots = (groups["place"] / bits).astype("i8")
        edges = [0, *(numpy.flatnonzero(slots[1:] != slots[:-1]) + 1).tolist(), len(slots)]
        for first, after in zip(edges, edges[1:]):
            if first < after and slots[first] != at:
                yield at * bits, mix
                at, mix = int(slots[first]), Mix()
            mix.add(groups[first:after])
    yield at * bits, mix


def options_corrected(parser: argparse.ArgumentParser) -> None:
    """Which blocks were corrected and how, as CSV: the group's position, type and version; the number, offset and word of the block; the
    error mask, its length in bits, and when the block began.

    rds-monitor corrected --burst 5 monday.bin | cut -d, -f8 | sort | uniq -c"""
    input_options(parser)
    clock_options(parser)


def run_corrected(arguments: argparse.Namespace) -> int:
    clock, extent = clock_of(arguments), Extent(open_input(arguments))
    names = "bit type version block offset word burst burst_length time_s".split()
    rows = (row for chunk in extent.chunks() for row in corrected_in(groups_in(chunk), clock))
    return write_table([*names, *clock.names("time")], rows)


def corrected_in(groups: Rows, clock: Clock) -> Iterator[List[Any]]:
    at, blocks = numpy.nonzero(kinds_of(groups) == CORRECTED)
    starts, index = groups["place"][at].tolist(), type_index(groups[at]).tolist()
    words, masks, offsets = (
        numpy.stack([groups[f"{name}{block}"] for block in BLOCKS], 1)[at, blocks]
        for name in ("info", "burst", "offset")
    )
    columns = (blocks + 1, offsets, words, masks, burst_lengths(masks), places_of(groups)[at, blocks])
    for start, kind, *cells in zip(starts, index, *(column.tolist() for column in columns)):
        block, offset, word, burst, span, place = cells
        shown = block, OFFSET_NAMES[offset], f"{word:04X}", f"{burst:07X}", span
        yield [start, *type_names(kind), *shown, *clock.texts(place), *clock.utc(place)]
