"""Groups as lines of four hexadecimal words, as redsea and RDS Spy write and read them.

    D393 0548 E0CD 5041
    D393 ---- E0CD 5041 @2026/03/29 00:30:00.09

A block that is not known is `----`. RDS Spy adds the time after `@`; in place of it redsea may have a time of any form.
Lines that begin with `<`, and lines `G:`, hold no group."""
import datetime
import re
from contextlib import suppress
from itertools import chain
from typing import Iterator, List, Optional, Sequence, Tuple

import numpy

from .clock import LAST_YEAR, RATE
from .heads import GROUP_LINE, NO_GROUP
from .items import ACQUIRED, GROUP, GROUP_BITS, ITEM, LOSS, LOST, UNKNOWN_TYPE, VALID
from .items import VERSION_A, VERSION_B, VERSION_UNKNOWN, Fault, Readable, Rows, Totals, add_totals, totals_of

_TIMES = ("%Y/%m/%d %H:%M:%S.%f", "%Y/%m/%d %H:%M:%S", "%Y-%m-%d %H:%M:%S.%f", "%Y-%m-%d %H:%M:%S")
CHUNK = 1 << 20


def line_of(line: bytes, number: int) -> Optional[Tuple[List[int], Optional[float]]]:
    """The group of a line, or None if it holds none: its words, of which those not known are -1, and its time since 1970 if it says one."""
    if re.fullmatch(NO_GROUP, line):
        return None
    match = re.fullmatch(GROUP_LINE, line)
    if not match:
        raise Fault(f"line {number} is no group of four hexadecimal words")
    words = [-1 if word == b"----" else int(word, 16) for word in match.groups()[:4]]
    return words, None if match[5] is None else _time_of(match[5].decode("ascii", "replace"), number)


def _time_of(text: str, number: int) -> float:
    for form in _TIMES:
        with suppress(ValueError):
            time = datetime.datetime.strptime(text, form)
            if time.year <= LAST_YEAR:
                return (time - datetime.datetime(1970, 1, 1)).total_seconds()
    raise Fault(f"line {number}: {text!r} is no time such as 2026/03/29 00:30:00.09")


class GroupLines:
    """A source of lines. Their groups are taken to follow each other, unless times say that some are missing between two.

    Times are trusted to `SLACK` seconds, since a computer writes them when it comes to it. `start` is the time of the first group.
    """

    SLACK = 1.25
    is_soft = False

    def __init__(self, stream: Readable, head: bytes) -> None:
        self.length: Optional[int] = None
        self.totals: Optional[Totals] = None
        self.start: Optional[float] = None
        self._stream, self._rest = stream, head
        self._place, self._number = 0, 0
        self._synchronised = False

    def chunks(self) -> Iterator[Rows]:
        more, counted = True, totals_of(numpy.zeros(0, ITEM))
        while more:
            data = self._stream.read(CHUNK)
            more = bool(data)
            lines = (self._rest + data).split(b"\n")
            self._rest = lines.pop() if more else b""
            found: List[Tuple[int, ...]] = []
            for line in lines:
                self._number += 1
                group = line_of(line, self._number)
                if group:
                    self._take(*group, found)
            rows = numpy.array(found, ITEM)
            counted = add_totals(counted, totals_of(rows))
            yield rows
        self.length, self.totals = self._place, counted

    def _take(self, words: List[int], time: Optional[float], found: List[Tuple[int, ...]]) -> None:
        if time is not None:
            self.start = time if self.start is None else self.start
            place = round((time - self.start) * RATE)
            if place > self._place + self.SLACK * RATE:
                if self._synchronised:
                    found.append((self._place - 1, *_NO_BLOCKS, LOSS, 0, 0, 0))
                self._synchronised, self._place = False, place
        if not self._synchronised:
            found.append((self._place + 25, *_NO_BLOCKS, ACQUIRED, 1, 0, 0))
        self._synchronised = True
        found.append(_group_row(self._place, words))
        self._place += GROUP_BITS


_NO_BLOCKS = (0,) * 16


def _group_row(place: int, words: Sequence[int]) -> Tuple[int, ...]:
    """A group whose blocks are valid, or lost. Without block 2, block 3 has the offset C' if it repeats block 1."""
    first, second, third, _ = words
    is_b = second >> 11 & 1 if second >= 0 else third >= 0 and third == first
    version = (VERSION_B if is_b else VERSION_A) if max(second, third) >= 0 else VERSION_UNKNOWN
    offsets = (1, 2, 4 if is_b else 3, 5)
    found = ((0, word, VALID, own) if word >= 0 else (0, 0, LOST, 0) for word, own in zip(words, offsets))
    return (place, *chain(*found), GROUP, second >> 12 if second >= 0 else UNKNOWN_TYPE, version, 0)
