"""The station's clock: the groups of clock time (CT), and the start and the rate of a recording by them."""

import argparse
import statistics
from typing import Iterator, List, NamedTuple, Tuple

from ..rows.clock import DAY, EPOCH_MJD, RATE, Clock, utc_text
from ..rows.inputs import input_options, open_input
from ..rows.items import GROUP, VALID, VERSION_A, Fault, Rows


class Tick(NamedTuple):
    """A group of clock time: the position after its last bit, at which the minute begins, and that minute in seconds since 1970."""

    place: int
    time: int


def ticks_of(rows: Rows) -> List[Tick]:
    """The groups of clock time (4A, IEC 62106 section 3.1.5.6) whose four blocks are valid. Hour 24 and minute 60 are none."""
    at = (rows["what"] == GROUP) & (rows["number"] == 4) & (rows["version"] == VERSION_A)
    found = rows[at]
    for block in (1, 2, 3, 4):
        found = found[found[f"kind{block}"] == VALID]
    second, third, fourth = (found[f"info{block}"].astype("i8") for block in (2, 3, 4))
    day, hour, minute = (second & 3) << 15 | third >> 1, (third & 1) << 4 | fourth >> 12, fourth >> 6 & 63
    times = (day - EPOCH_MJD) * DAY + hour * 3600 + minute * 60
    fine = (day >= EPOCH_MJD) & (hour < 24) & (minute < 60)
    places = found["place"].astype("i8") + 104
    return [Tick(*pair) for pair in zip(places[fine].tolist(), times[fine].tolist())]


class Fit(NamedTuple):
    """What the station's clock says of the sampler's: ticks that go together, in stretches, the rate they have in
    common, twice its standard error in parts per million, and the start by the longest stretch."""

    ticks: List[Tick]
    stretches: List[List[Tick]]
    clock: Clock
    within_ppm: float

    @property
    def ppm(self) -> float:
        return (self.clock.rate / RATE - 1) * 1e6

    def steps(self) -> Iterator[Tuple[Tick, float]]:
        """Where the two clocks stepped against each other, and by how many seconds: samples were dropped, or the
        station's clock was set. Stretches of a single tick, or amid a longer one, are wrong times, and no steps.
        """
        told: List[List[Tick]] = []
        for stretch in sorted(self.stretches, key=len, reverse=True):
            apart = all(stretch[0] > entry[-1] or stretch[-1] < entry[0] for entry in told)
            if len(stretch) > 1 and apart:
                told.append(stretch)
        told.sort()
        for before, after in zip(told, told[1:]):
            expected = before[-1].time + (after[0].place - before[-1].place) / self.clock.rate
            yield after[0], after[0].time - expected


def go_together(early: Tick, late: Tick, rate: float, slack: float) -> bool:
    """Whether positions and times do, to half a second and a part of the time between them."""
    bits, seconds = late.place - early.place, late.time - early.time
    return seconds > 0 and abs(bits / rate - seconds) < 0.5 + slack * seconds


def stretches_of(ticks: List[Tick], rate: float, slack: float) -> List[List[Tick]]:
    """Ticks by what goes together. A stretch goes on after a tick that belongs to none."""
    found: List[List[Tick]] = []
    for tick in ticks:
        for stretch in found[:-10:-1]:
            if go_together(stretch[-1], tick, rate, slack):
                stretch.append(tick)
                break
        else:
            found.append([tick])
    return found


def slope_of(stretches: List[List[Tick]]) -> Tuple[float, float]:
    """The bits per second that all stretches have in common, by least squares, and the standard error."""
    points = 0
    centred: List[Tuple[float, float]] = []
    for stretch in stretches:
        place = statistics.fmean(tick.place for tick in stretch)
        time = statistics.fmean(tick.time for tick in stretch)
        centred.extend((tick.place - place, tick.time - time) for tick in stretch)
        points += len(stretch) - 1
    below = sum(time * time for _, time in centred)
    rate = sum(place * time for place, time in centred) / below
    rest = sum((place - rate * time) ** 2 for place, time in centred)
    return rate, float((rest / (points - 1) / below) ** 0.5)


def fit(ticks: List[Tick]) -> Fit:
    """Fails if no stretch has three ticks over ten minutes."""
    # The first guess is rough, since two ticks in a row are a minute apart.
    pairs = [(after.place - tick.place, after.time - tick.time) for tick, after in zip(ticks, ticks[1:])]
    slopes = [bits / seconds for bits, seconds in pairs if seconds > 0]
    rate = statistics.median(slopes) if slopes else RATE
    for slack in 1e-3, 1e-4:
        stretches = stretches_of(ticks, rate, slack)
        longest: List[Tick] = max(stretches, key=len, default=[])
        if len(longest) < 3 or longest[-1].time - longest[0].time < 600:
            among = f"{len(ticks)} valid groups of clock time"
            raise Fault(f"no three of the {among} go together over ten minutes")
        rate, error = slope_of(stretches)
    start = statistics.median(tick.time - tick.place / rate for tick in longest)
    return Fit(ticks, stretches, Clock(start, rate), 2 * error / RATE * 1e6)


def options_clock(parser: argparse.ArgumentParser) -> None:
    """Find the start and the rate of a recording by the clock time (CT) of its station. A group of CT ends as a minute begins, within a
    tenth of a second.

    rds-monitor clock monday.bin
    rds-monitor errors $(rds-monitor clock --options monday.bin) monday.bin > errors.csv"""
    input_options(parser)
    form = parser.add_mutually_exclusive_group()
    of_options = "print --start TIME --rate BITS for the other commands"
    of_steps = "list the steps: dropped samples, or a station's clock that was set"
    form.add_argument("--options", action="store_true", help=of_options)
    form.add_argument("--steps", action="store_true", help=of_steps)


def run_clock(arguments: argparse.Namespace) -> int:
    ticks = [tick for rows in open_input(arguments).chunks() for tick in ticks_of(rows)]
    found = fit(ticks)
    start, rate = utc_text(found.clock.start or 0), f"{found.clock.rate:.6f}"
    if arguments.options:
        print(f"--start {start} --rate {rate}")
    elif arguments.steps:
        steps = (f"{tick.place},{utc_text(tick.time)},{step:+.3f}" for tick, step in found.steps())
        print("bit,utc,step_s", *steps, sep="\n")
    else:
        counts = f"{len(ticks)},{len(found.stretches)},{(ticks[-1].time - ticks[0].time) / 3600:.2f}"
        print("groups,stretches,hours,rate,ppm,within_ppm,start_utc")
        print(f"{counts},{rate},{found.ppm:.1f},{found.within_ppm:.1f},{start}")
    return 0
