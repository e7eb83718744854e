"""The command `groups`: groups as lines of four hexadecimal words, as redsea and RDS Spy read them."""

import argparse
import sys
from typing import Iterator

import numpy

from ..rows.clock import Clock, clock_of, clock_options, milliseconds, utc_texts
from ..rows.inputs import input_options, open_input
from ..rows.items import BLOCKS, VALID, Misuse, Rows
from ..rows.listing import groups_in

_DIGITS = numpy.frombuffer(b"0123456789ABCDEF", "u1")
# The four digits of each word.
_WORDS = _DIGITS[numpy.arange(1 << 16)[:, None] >> numpy.array([12, 8, 4, 0]) & 15].view("u4").ravel()


def text_of(groups: Rows) -> bytes:
    """The groups, a line of 20 bytes each."""
    lines = numpy.full((len(groups), 20), ord(" "), "u1")
    for block in BLOCKS:
        digits = lines[:, 5 * block - 5 : 5 * block - 1]
        digits[:] = _WORDS[groups[f"info{block}"]].view("u1").reshape(-1, 4)
        digits[groups[f"kind{block}"] < VALID] = ord("-")
    lines[:, 19] = ord("\n")
    return lines.tobytes()


def times_of(places: Rows, clock: Clock, spy: bool) -> Iterator[bytes]:
    """The times of groups: as RDS Spy writes them, or in UTC if it is known, or in seconds."""
    if clock.start is None:
        times = milliseconds(places, clock.rate)
    else:
        times = utc_texts(clock.start + places / clock.rate)
    for time in times:
        yield (f"@{time[:10].replace('-', '/')} {time[11:22]}" if spy else time).encode("ascii")


def options_groups(parser: argparse.ArgumentParser) -> None:
    """The groups as lines of four hexadecimal words, for redsea, RDS Spy or rds encode. A block that is not known is written ----. The
    input may be such lines too.

    rds-monitor groups monday.bin | redsea --input hex
    rds-monitor groups --whole monday.bin | rds encode > clean.bin
    rds-monitor groups --spy --start 2026-03-29T00:30:00Z monday.bin > monday.spy"""
    input_options(parser)
    parser.add_argument("--whole", action="store_true", help="leave out groups that lack a block")
    form = parser.add_mutually_exclusive_group()
    form.add_argument("--times", action="store_true", help="add the time: UTC if it is known, or seconds")
    form.add_argument("--spy", action="store_true", help="add @ and the time in UTC, as RDS Spy does")
    clock_options(parser)


def run_groups(arguments: argparse.Namespace) -> int:
    source = open_input(arguments)
    for rows in source.chunks():
        clock, groups = clock_of(arguments, source), groups_in(rows)
        if arguments.spy and clock.start is None:
            raise Misuse("--spy writes UTC: say --start, as rds-monitor clock --options finds it")
        text = text_of(groups)
        if arguments.spy or arguments.times:
            times = times_of(groups["place"], clock, arguments.spy)
            text = b"".join(b"%s %s\n" % pair for pair in zip(text.splitlines(), times))
        if arguments.whole:
            text = b"".join(line for line in text.splitlines(keepends=True) if b"-" not in line[:19])
        sys.stdout.buffer.write(text)
    return 0
