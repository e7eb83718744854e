"""A station's tile: the last minute, the last day as a line, how long ago the last whole group was, and an alarm."""

from typing import Any, Dict, List, NamedTuple, Optional, Sequence

import numpy

from ..db.standing import Standing, standing
from ..rows.clock import DAY
from .line import bad_percent

POINTS = 96


class Span(NamedTuple):
    """Blocks of a session: the seconds from the station's first bit to its own, and for each `step` seconds those sent and those valid."""

    begin: float
    step: int
    sent: Any
    valid: Any


def line_of(spans: Sequence[Span], end: float) -> List[Optional[float]]:
    """Per cent of bad blocks in each quarter of an hour of the last day, if anything was received then."""
    sums = numpy.zeros((2, POINTS))
    for span in spans:
        seconds = span.begin + span.step * numpy.arange(len(span.sent)) - (end - DAY)
        at = numpy.floor(seconds / (DAY / POINTS)).astype("i8")
        seen = (at >= 0) & (at < POINTS)
        for row, counts in zip(sums, (span.sent, span.valid)):
            row += numpy.bincount(at[seen], counts[seen], POINTS)
    return [bad_percent(int(sent), int(valid)) if sent else None for sent, valid in sums.T]


def last_minute(spans: Sequence[Span]) -> Optional[float]:
    """Per cent of bad blocks in the last minute with any, or in the last interval if that is longer."""
    for span in reversed(spans):
        count = max(1, 60 // span.step)
        sent = numpy.trim_zeros(span.sent, "b")  # the last interval may be shorter than a block
        if len(sent):
            first = max(0, len(sent) - count)
            return bad_percent(int(sent[first:].sum()), int(span.valid[first : len(sent)].sum()))
    return None


def tile_of(
    spans: Sequence[Span], end: float, silent: Optional[float], stands: Optional[Standing] = None
) -> Dict[str, Any]:
    """By how a watch says that the station stands, or else by the end of the recording."""
    minute, line = last_minute(spans), line_of(spans, end)
    stands = stands or standing(None, silent or 0.0, minute, {})
    gone = None if silent is None else round(silent, 1)
    return {"minute": minute, "line": line, "silent": gone, "alarm": stands.text, "state": stands.state}


def polyline(line: Sequence[Optional[float]]) -> List[str]:
    """The points of the line's parts in a picture of 96 by 20, with 0 per cent at its bottom."""
    parts: List[List[str]] = [[]]
    for at, percent in enumerate(line):
        if percent is None:
            parts.append([])
        else:
            parts[-1] += [f"{at},{20 - percent / 5:.1f}", f"{at + 1},{20 - percent / 5:.1f}"]
    return [" ".join(part) for part in parts if part]
