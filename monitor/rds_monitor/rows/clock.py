"""When a bit was received: positions as seconds and as UTC, by a recording's start and rate, or by the clock time (CT) of its station."""

import argparse
import datetime
import re
from typing import Any, Callable, List, NamedTuple, Optional, TypeVar

import numpy

from .items import Rows, Source

RATE = 1187.5
EPOCH_MJD = 40587
DAY = 86400
LAST_YEAR = 9990  # the longest recording takes two years, and Python has times up to the year 9999


class Clock(NamedTuple):
    """The UTC of a recording's first bit, in seconds since 1970, if known, and the bits per second of the sampler's clock."""

    start: Optional[float] = None
    rate: float = RATE

    def seconds(self, place: float) -> float:
        """From the start of the recording."""
        return place / self.rate

    def texts(self, *places: float, digits: int = 3) -> List[str]:
        return [f"{place / self.rate:.{digits}f}" for place in places]

    def names(self, *prefixes: str) -> List[str]:
        """The names of UTC columns: none if the start is not known."""
        return [f"{prefix}_utc" for prefix in prefixes] if self.start is not None else []

    def utc(self, *places: float) -> List[str]:
        return [] if self.start is None else [utc_text(self.start + place / self.rate) for place in places]


def utc_text(seconds: float) -> str:
    """A time since 1970 to the millisecond, such as 2026-03-29T00:30:00.000Z."""
    time = datetime.datetime(1970, 1, 1) + datetime.timedelta(milliseconds=int(seconds * 1000 + 0.5))
    return time.isoformat(timespec="milliseconds") + "Z"


def utc_texts(seconds: Rows) -> List[str]:
    stamps = (seconds * 1000 + 0.5).astype("i8").astype("M8[ms]")
    return [f"{stamp}Z" for stamp in numpy.datetime_as_string(stamps).tolist()]


def start_of(text: str) -> float:
    match = re.fullmatch(r"\d{4}-\d\d-\d\dT\d\d:\d\d:\d\d(\.\d{1,6})?Z", text)
    try:
        whole = datetime.datetime.strptime(text[:19], "%Y-%m-%dT%H:%M:%S") if match else None
    except ValueError:
        whole = None
    if match is None or whole is None or not 1970 <= whole.year <= LAST_YEAR:
        raise argparse.ArgumentTypeError(f"{text!r} is no time in UTC, such as 2026-03-29T00:30:00Z")
    return (whole - datetime.datetime(1970, 1, 1)).total_seconds() + float(match[1] or 0)


Value = TypeVar("Value")


def option_type(
    pattern: str, make: Callable[[str], Value], fault: str, fits: Callable[[Value], bool] = lambda value: True
) -> Callable[[str], Value]:
    """Makes the value of an option from a text of this pattern, if it fits. In an error the text comes before the fault."""

    def value_of(text: str) -> Value:
        value = make(text) if re.fullmatch(pattern, text) else None
        if value is None or not fits(value):
            raise argparse.ArgumentTypeError(f"{text!r} {fault}")
        return value

    return value_of


# A clock that is off by a tenth is none of a sampler.
rate_of = option_type(
    r"\d+(\.\d+)?", float, "is not in bits per second, 1187.5 within a tenth", lambda rate: 1068 < rate < 1307
)
number_of = option_type(r"\d{1,12}(\.\d{1,9})?", float, "is no number")


def clock_options(parser: argparse.ArgumentParser) -> None:
    group = parser.add_argument_group("for times")
    of_start = "UTC of the first bit, such as 2026-03-29T00:30:00Z"
    of_rate = "bits per second of the sampler's clock (%(default)s); the command clock finds both"
    group.add_argument("--start", type=start_of, metavar="TIME", help=of_start)
    group.add_argument("--rate", type=rate_of, default=RATE, metavar="BITS", help=of_rate)


def clock_of(arguments: argparse.Namespace, source: Optional[Source] = None) -> Clock:
    """The clock of the options, or by default the start that the input itself says."""
    start = getattr(source, "start", None) if arguments.start is None else arguments.start
    return Clock(start, arguments.rate)


def milliseconds(places: Any, rate: float) -> List[str]:
    """Positions as seconds to the millisecond, as text."""
    return [f"{seconds:.3f}" for seconds in (numpy.asarray(places, "f8") / rate).tolist()]
