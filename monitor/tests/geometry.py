"""What the chart of a page shows from one second to another, and where: from the page's data, by none of its script's lines.

A chart is as wide as its element. From top to bottom it has bars of blocks, two lanes of shares, the group mix, a lane per item, the clock
and the axis.
"""

from __future__ import annotations

import base64
import math
from collections import Counter
from datetime import datetime, timedelta, timezone
from typing import Any, Dict, Iterator, List, NamedTuple, Tuple

import numpy

# Room beside the lanes, the width of a column, and the lines of 100 % and of 0 % of the blocks.
LEFT, RIGHT, COLUMN, FULL, EMPTY = 62, 10, 2, 6, 170
OUTAGES, SESSIONS, MIX, ITEMS = 174, 194, 214, 278
SHARE, ALL_TYPES, ITEM, CLOCK = 16, 60, 15, 50
SHORTEST, TYPES = 60, 12
KINDS = ("missing", "lost", "corrected")


class Box(NamedTuple):
    """A rectangle, and the text that is shown above it."""

    x: float
    y: float
    width: float
    height: float
    title: str = ""


class Text(NamedTuple):
    x: float
    y: float
    text: str


class View(NamedTuple):
    """A station's data, from one second to another, on a chart of some pixels."""

    data: Dict[str, Any]
    width: int
    first: float
    last: float

    @property
    def span(self) -> float:
        return self.last - self.first

    @property
    def columns(self) -> int:
        return (self.width - LEFT - RIGHT) // COLUMN

    def x(self, seconds: float) -> float:
        """Where a second is, or the end of the view that is nearest to it."""
        share = (min(max(seconds, self.first), self.last) - self.first) / self.span
        return LEFT + share * (self.width - LEFT - RIGHT)

    def edges(self) -> Any:
        """The seconds between which the columns are."""
        return self.first + self.span / self.columns * numpy.arange(self.columns + 1)

    def after(self, button: str) -> "View":
        """The view that a button leads to: no shorter than a minute, within the recording."""
        begin, end = extent(self.data)
        factors = {"in": 0.5, "out": 2.0, "minute": 60 / self.span, "hour": 3600 / self.span}
        span = min(end - begin, max(SHORTEST, factors.get(button, 1.0) * self.span))
        middle = (self.first + self.last) / 2 + {"left": -0.5, "right": 0.5}.get(button, 0) * self.span
        first = max(begin, min(end - span, middle - span / 2))
        return self._replace(first=first, last=first + span)


def extent(data: Dict[str, Any]) -> Tuple[float, float]:
    begin = data["sessions"][0][0]
    return begin, max(data["end"], begin + SHORTEST)


def whole(data: Dict[str, Any], width: int) -> View:
    return View(data, max(320, width), *extent(data))


# ---- times as texts


def time_text(start: "float | None", seconds: float) -> str:
    """A time of the page: of day if a recording has no start, else UTC."""
    if start is None:
        hours, rest = divmod(int(seconds), 3600)
        return f"{hours:02}:{rest // 60:02}:{rest % 60:02}"
    epoch = datetime(1970, 1, 1, tzinfo=timezone.utc)
    return (epoch + timedelta(seconds=math.floor(start + seconds))).strftime("%Y-%m-%d %H:%M:%SZ")


def tick_text(view: View, seconds: float) -> str:
    """On the axis: the time of day, or of more than two days the day and the minute."""
    text = time_text(view.data["start"], seconds)
    if view.data["start"] is None:
        return text
    return text[5:16] if view.span > 2 * 86400 else text[11:19]


def ticks(low: float, high: float, count: float) -> List[float]:
    """Round numbers, of about that count."""
    ideal = (high - low) / count
    power = 10.0 ** math.floor(math.log10(ideal))
    step = power * next(
        (one for one, upto in ((1, 4 / 3), (2, 20 / 7), (5, 20 / 3)) if ideal / power < upto - 1e-9), 10
    )
    return [step * n for n in range(math.ceil(low / step - 1e-9), math.floor(high / step + 1e-9) + 1)]


# ---- the blocks


def counts_in(view: View) -> Dict[str, Any]:
    """The blocks of each column: of the intervals that end in it, or else of the one that covers it."""
    sums = {name: numpy.zeros(view.columns) for name in ("sent", *KINDS)}
    edges = view.edges()
    for part in view.data["parts"]:
        raw = {name: base64.b64decode(part[name]) for name in sums}
        counts = {name: numpy.frombuffer(text, f"<u{part['bytes']}") for name, text in raw.items()}
        ends = part["at"] + part["step"] * numpy.arange(1, len(counts["sent"]) + 1)
        for k, (low, high) in enumerate(zip(edges, edges[1:])):
            among = (ends > low) & (ends <= high)
            if not among.any():
                among = (ends - part["step"] <= low) & (ends > low)
            for name, of in counts.items():
                sums[name][k] += of[among].sum()
    return sums


def blocks(view: View, sums: Dict[str, Any]) -> Dict[str, List[Box]]:
    """A bar per column with blocks. From its top down the bad ones are over the valid ones, each kind with a pixel at least."""
    boxes: Dict[str, List[Box]] = {name: [] for name in ("valid", *KINDS)}
    for k in numpy.flatnonzero(sums["sent"]):
        x, y, pixels = LEFT + COLUMN * int(k), float(FULL), (EMPTY - FULL) / sums["sent"][k]
        boxes["valid"].append(Box(x, FULL, COLUMN, EMPTY - FULL))
        for name in KINDS:
            high = float(sums[name][k] * pixels)
            boxes[name] += [Box(x, y, COLUMN, max(1.0, high))] * bool(high)
            y += high
    return boxes


def bad_text(view: View, sums: Dict[str, Any]) -> str:
    sent, bad = sums["sent"].sum(), sum(sums[name].sum() for name in KINDS)
    begin, end = (time_text(view.data["start"], at) for at in (view.first, view.last))
    return f"{begin} to {end}: {100 * bad / sent if sent else 0:.2f} % bad blocks"


# ---- lanes


def shares(view: View, kind: str, top: float) -> List[Box]:
    """The part of each column's time in these spans, as a bar of up to 16 pixels, of one at least. Neighbours of one height are one bar."""
    edges, taken = view.edges(), numpy.zeros(view.columns)
    for begin, end, seconds, *_ in view.data[f"{kind}s"]:
        inside = numpy.clip(numpy.minimum(edges[1:], end) - numpy.maximum(edges[:-1], begin), 0, None)
        taken += inside * seconds / (end - begin)
    taken /= view.span / view.columns
    heights = [max(1, math.floor(min(1, one) * SHARE + 0.5)) if one > 1e-12 else 0 for one in taken]
    boxes, k = [], 0
    while k < view.columns:
        after = next((n for n in range(k, view.columns) if heights[n] != heights[k]), view.columns)
        begin, end = (time_text(view.data["start"], edges[n]) for n in (k, after))
        title = f"{kind}s from {begin} to {end}: {100 * taken[k:after].mean():.1f} %"
        box = Box(LEFT + COLUMN * k, top + 18 - heights[k], COLUMN * (after - k), heights[k], title)
        boxes += [box] * bool(heights[k])
        k = after
    return boxes


def types_of(data: Dict[str, Any]) -> List[str]:
    """The types with a colour of their own, and one for all others."""
    sums: Counter[str] = Counter()
    for _, _, counts in data["mix"]:
        sums.update(counts)
    most = sorted(name for name, _ in sums.most_common(TYPES))
    return [*most, "other"] if len(sums) > TYPES else most


def mix(view: View) -> Iterator[Tuple[str, Box]]:
    """The types of groups in each time of the mix, or in several if there are more times than columns."""
    types = types_of(view.data)
    seen = [row for row in view.data["mix"] if row[1] > view.first and row[0] < view.last]
    every = max(1, -(-len(seen) // view.columns))
    for n in range(0, len(seen), every):
        rows, y = seen[n : n + every], float(MIX)
        counts = dict.fromkeys(types, 0)
        for _, _, told in rows:
            for name, count in told.items():
                counts[name if name in counts else "other"] += count
        left, right = view.x(rows[0][0]), view.x(rows[-1][1])
        for name, count in counts.items():
            high = ALL_TYPES * count / sum(counts.values())
            title = f"{name}: {count} groups from {time_text(view.data['start'], rows[0][0])}"
            if count:
                yield name, Box(left, y, max(1.0, right - left), high, title)
            y += high


def lanes(view: View) -> Iterator[Tuple[Box, str]]:
    """The texts of each item: a bar that is a pixel wide at least, but for those within the pixel of the one before, and what fits in it."""
    for number, (name, stretches) in enumerate(view.data["lanes"]):
        end_of_last = -math.inf
        for begin, end, text in stretches:
            if begin > view.last or end < view.first:
                continue
            left = view.x(begin)
            right = max(left + 1, view.x(end))
            if right > end_of_last + 1:
                end_of_last, told = right, view.data["texts"][text]
                title = f"{name} from {time_text(view.data['start'], begin)}: {told}"
                fits = int((right - left - 4) // 6.5)
                box = Box(left, ITEMS + ITEM * number + 1, right - left, ITEM - 2, title)
                yield box, told[:fits] if fits > 2 else ""


def texts(view: View) -> List[Text]:
    """The lanes' names, and the texts in them."""
    names = [
        Text(4, OUTAGES + 14, "outages"),
        Text(4, SESSIONS + 14, "sessions"),
        Text(4, MIX + 30, "groups"),
    ]
    names += [Text(4, ITEMS + ITEM * n + 11, name) for n, (name, _) in enumerate(view.data["lanes"])]
    names += [Text(box.x + 3, box.y + 10, held) for box, held in lanes(view) if held]
    if clock(view)[0]:
        names.append(Text(LEFT + 6, below_items(view) + 14, "station's clock, less that of the recording"))
    return names


def below_items(view: View) -> int:
    return ITEMS + ITEM * len(view.data["lanes"])


def clock(view: View) -> Tuple[List[Tuple[float, float]], str, Tuple[float, float]]:
    """The points of the clock's line, its text, and the lowest and the highest value of its axis."""
    seen = [(at, offset) for at, offset in view.data["clock"] if view.first <= at <= view.last]
    if not seen:
        return [], "", (0, 0)
    low, high = min(offset for _, offset in seen), max(offset for _, offset in seen)
    room, bottom = max(0.1, 0.1 * (high - low)), below_items(view) + 4 + CLOCK
    pixels = CLOCK / (high - low + 2 * room)
    points = [(view.x(at), bottom - (offset - low + room) * pixels) for at, offset in seen]
    return (
        points,
        f"the station's clock less that of the recording: {low:.15g} s to {high:.15g} s",
        (low - room, high + room),
    )


# ---- axes


def axes(view: View) -> List[List[Text]]:
    """The ticks of each axis: per cent, seconds of the clock, and the time."""
    percent = [Text(LEFT, EMPTY - (EMPTY - FULL) * n / 100, f"{n} %") for n in range(0, 101, 20)]
    found, begin = [percent], below_items(view)
    points, _, (low, high) = clock(view)
    if points:
        bottom, pixels = begin + 4 + CLOCK, CLOCK / (high - low)
        found.append([Text(LEFT, bottom - (at - low) * pixels, f"{at:.6g} s") for at in ticks(low, high, 3)])
    bottom = begin + (CLOCK + 8) * bool(view.data["clock"])
    times = ticks(view.first, view.last, min(6, view.width / 150))
    return [*found, [Text(view.x(at), bottom, tick_text(view, at)) for at in times]]


# ---- tables


def tables(view: View) -> Dict[str, List[List[str]]]:
    """The rows in view of each table, 200 at most; the last ones say how many there are besides."""
    found, data = {}, view.data
    time = lambda at: time_text(data["start"], at)
    for name in ("sessions", "outages"):
        rows = [row for row in data[name] if row[1] >= view.first and row[0] <= view.last]
        found[name] = [[time(row[0]), time(row[1]), f"{row[2]:.3f}", *map(str, row[3:])] for row in rows]
    events = [row for row in data["events"] if view.first <= row[0] <= view.last]
    found["events"] = [[time(at), item, data["texts"][text]] for at, item, text in events]
    for name, all_rows in found.items():
        more = len(all_rows) - 200
        found[name] = all_rows[:200] + [[f"{more} more: zoom in"]] * (more > 0)
    found["events"] += [[f"{data['more']} more are not on this page"]] * bool(data["more"])
    return found
