"""Names of the files of a watch: an hour of a session, in the form of a listing, compressed or not. They give the times of the rows."""

import argparse
import datetime
import os
import re
from typing import List, NamedTuple, Optional

from .clock import RATE, Clock

NAME = re.compile(
    r"(\d{4}-\d\d-\d\dT\d\d)Z_(\d{8}T\d{6}\.\d{3})Z(?:_(\d{4}\.\d{4}))?(_soft)?\.csv(?:\.(?:gz|xz|zst))?"
)
HOUR = 3600
EPOCH = datetime.datetime(1970, 1, 1)


class Hour(NamedTuple):
    """An hour's file: the UTC at which its hour begins, the start and the rate by which its positions are times, and whether its blocks
    were corrected by soft decisions, which only the last file of a session tells by its totals."""

    begin: float
    start: float
    rate: float = RATE
    is_soft: bool = False

    @property
    def name(self) -> str:
        hour = EPOCH + datetime.timedelta(seconds=self.begin)
        start = EPOCH + datetime.timedelta(milliseconds=round(self.start * 1000))
        more = ("" if self.rate == RATE else f"_{self.rate:.4f}") + "_soft" * self.is_soft
        return f"{hour:%Y-%m-%dT%HZ}_{start:%Y%m%dT%H%M%S}.{start.microsecond // 1000:03d}Z{more}.csv"


def hour_of(path: str) -> Optional[Hour]:
    """The hour that the name of a file says, if it is that of one."""
    match = NAME.fullmatch(os.path.basename(path))
    if not match:
        return None
    try:
        hour = datetime.datetime.strptime(match[1], "%Y-%m-%dT%H")
        start = datetime.datetime.strptime(match[2] + "000", "%Y%m%dT%H%M%S.%f")
    except ValueError:
        return None
    first, begun = ((time - EPOCH).total_seconds() for time in (hour, start))
    return Hour(first, begun, float(match[3] or RATE), match[4] is not None)


def take_hour(arguments: argparse.Namespace) -> None:
    """The options that the name of an input implies: an hour's file is a part of a listing, with a start and a rate."""
    given = getattr(arguments, "input", None)
    paths: List[str] = given if isinstance(given, list) else [given] if isinstance(given, str) else []
    hours = [hour_of(path) for path in paths]
    if not hours or None in hours:
        return
    arguments.unfinished = True
    if len(hours) == 1 and getattr(arguments, "start", 0) is None:
        arguments.start, arguments.rate = clock_of_hour(arguments, paths[0])


def clock_of_hour(arguments: argparse.Namespace, path: str) -> Clock:
    """The clock of an input: by its name, if that is of an hour, unless the options say it."""
    hour = hour_of(path)
    if hour is None or arguments.start is not None:
        return Clock(arguments.start, arguments.rate)
    return Clock(hour.start, hour.rate if arguments.rate == RATE else arguments.rate)
