#!/usr/bin/env python3
"""Compares the database of a watch with what was sent: monitor/tests/accountant.py SENT watch.db

It shares no code with rds-monitor. SENT is JSON, with UTC in seconds:

    watched  when the watch was there: [begin, end, whether it was killed]
    runs     of receivers: the reads, each [when, first bit, after last bit], the bits by when they were sent
    noise, other_pi, full_disk   when the station sent noise or another PI, and when no row could be written
    patience, burst              of the receivers

Each second has its state, minutes have the blocks that were sent, outages their begins and ends, and alarms too. It writes what is wrong,
and ends with status 1 if anything is.
"""

from __future__ import annotations

import json
import sqlite3
import sys
from typing import Any, Dict, Iterator, List, Optional, Tuple

Span = Tuple[float, float]
# Seconds by which anything may be off, and that a kill may cost of a count.
OFF, KILL = 2.0, 10.0
BLOCKS_PER_SECOND = 1187.5 / 26
SILENT, NO_RDS, PI, DISK, CLEAR, PI_CLEAR = 15.0, 10.0, 10.0, 5.0, 5.0, 10.0


def holds(spans: List[Any], moment: float) -> bool:
    return any(span[0] <= moment < span[1] for span in spans)


def overlap(spans: List[Span], begin: float, end: float) -> float:
    return sum(max(0.0, min(end, after) - max(begin, first)) for first, after in spans)


def joined(spans: List[Span]) -> List[Span]:
    """Those that touch each other as one."""
    found: List[Span] = []
    for begin, end in sorted(spans):
        if found and begin - found[-1][1] < 0.01:
            begin, end = found[-1][0], max(found.pop()[1], end)
        found.append((begin, end))
    return found


class Sent:
    """What was sent, and which bits of it were received."""

    def __init__(self, told: Dict[str, Any]):
        self.watched: List[Tuple[float, float, bool]] = [(a, b, bool(c)) for a, b, c in told["watched"]]
        self.runs: List[List[Tuple[float, float, float]]] = [list(map(tuple, run)) for run in told["runs"] if run]  # type: ignore[arg-type]
        self.noise, self.other_pi, self.full_disk = told["noise"], told["other_pi"], told["full_disk"]
        self.patience, self.burst = told["patience"], told["burst"]
        self.begin, self.end = self.watched[0][0], self.watched[-1][1]
        self.heard = joined([(first, after) for run in self.runs for _, first, after in run])
        self.sound = [part for span in self.heard for part in self._without_noise(*span)]
        # Where a state changes; dropped bits are noticed some seconds later, by when those after them come.
        self.edges = [edge for begin, end, _ in self.watched for edge in (begin, end)]
        self.edges += [edge for span in self.noise for edge in span]
        self.edges += [edge for run in self.runs for edge in (run[0][1], run[-1][2])]
        self.drops = [
            (before[2] - self.burst - OFF, read[1] + 12 + 2 * self.burst)
            for run in self.runs
            for before, read in zip(run, run[1:])
            if read[1] > before[2] + 0.1
        ]

        # What a kill may have cost: the last news, if there were no rows.
        self.lost = [
            (end - KILL - self.burst, end)
            for _, end, killed in self.watched
            if killed and self.state(end - 1 - self.burst) != "received"
        ]

    def _without_noise(self, begin: float, end: float) -> Iterator[Span]:
        for first, after in self.noise:
            if begin < first < end or begin < after < end or first <= begin and end <= after:
                if begin < first:
                    yield begin, first
                begin = max(begin, min(after, end))
        if begin < end:
            yield begin, end

    def state(self, moment: float) -> str:
        if holds(self.heard, moment):
            return "noise" if holds(self.noise, moment) else "received"
        return "down" if holds(self.watched, moment) else "unknown"

    def is_clear(self, moment: float) -> bool:
        """Whether no change is near."""
        near = any(abs(edge - moment) <= OFF for edge in self.edges)
        return not near and not holds(self.drops, moment) and not holds(self.lost, moment)

    def told_end(self, moment: float) -> float:
        """The end of a span, or of the run that a kill cost the end of."""
        return next((end for begin, end in self.lost if begin - OFF <= moment <= end + OFF), moment)

    # ---- alarms, second by second

    def alarms(self) -> Dict[str, List[Span]]:
        found: Dict[str, List[List[Optional[float]]]] = {"silent": [], "no_rds": [], "pi": [], "disk": []}
        reads = sorted(read for run in self.runs for read in run)
        quiet = deaf = wrong = 0.0
        sounds = {name: 0.0 for name in found}
        at = 0
        # Rows wait from the first read on.
        full = [(min(read[0] for read in reads if read[0] > first), after) for first, after in self.full_disk]
        for moment in self._seconds():
            quiet += 1
            while at < len(reads) and reads[at][0] <= moment:
                _, first, after = reads[at]
                sound = overlap(self.sound, first, after)
                other = overlap(self.other_pi, first, after)
                ends = [min(end, after) for begin, end in self.sound if begin < after and end > first]
                deaf = after - max(ends) if ends else deaf + after - first
                # Without RDS nothing is known of the PI.
                wrong = wrong + other if other > 0 else wrong if sound < 0.5 * (after - first) else 0.0
                quiet, at = 0.0, at + 1
                last = max(
                    (min(end, after) for begin, end in self.other_pi if begin < after and end > first),
                    default=first,
                )
                since_then = overlap(self.sound, max(first, last), after)
                sounds["pi"] = since_then + (0.0 if other or not sound else sounds["pi"])
            age = deaf + (quiet if quiet > self.patience else 0.0)
            faults = {"silent": quiet > 2, "no_rds": age > 2, "disk": holds(self.full_disk, moment)}
            for name, fault in faults.items():
                sounds[name] = 0.0 if fault else sounds[name] + 1
            due = {"silent": quiet >= SILENT, "no_rds": age >= NO_RDS, "pi": wrong >= PI}
            due["disk"] = holds([(first + DISK, after) for first, after in full], moment)
            clear = {"silent": CLEAR, "no_rds": CLEAR, "pi": PI_CLEAR, "disk": 1.0}
            for name, spans in found.items():
                lasts = bool(spans) and spans[-1][1] is None
                if due[name] and not lasts:
                    spans.append([moment, None])
                elif lasts and sounds[name] >= clear[name]:
                    spans[-1][1] = moment
        return found  # type: ignore[return-value]

    def _seconds(self) -> Iterator[float]:
        for begin, end, _ in self.watched:
            for second in range(1, int(end - begin) + 1):
                yield begin + second


# ---- what is there


def states(data: sqlite3.Connection, sent: Sent) -> Iterator[str]:
    """Each second, and the sums of days."""
    found = data.execute("SELECT kind, begin_at, end_at FROM spans").fetchall()
    spans = {kind: [row[1:] for row in found if row[0] == kind] for kind in ("watched", "session", "noise")}
    moment = sent.begin + 0.5
    while moment < sent.end:
        is_in = {kind: holds(of, moment) for kind, of in spans.items()}
        told = (
            "noise"
            if is_in["noise"]
            else "received"
            if is_in["session"]
            else "down"
            if is_in["watched"]
            else "unknown"
        )
        if told != sent.state(moment) and sent.is_clear(moment):
            yield f"second {moment - sent.begin:.1f} is {told} in place of {sent.state(moment)}"
        moment += 1
    days = data.execute("SELECT received_s, noise_s, down_s, unknown_s FROM days").fetchall()
    sums = [sum(column) for column in zip(*days)]
    if abs(sum(sums) - 86400 * len(days)) > 0.1:
        yield f"days have {sum(sums)} s"
    count = int(sent.end - sent.begin)
    wanted = [sent.state(sent.begin + second + 0.5) for second in range(count)]
    killed = sum(killed for _, _, killed in sent.watched)
    for name, seconds in zip(("received", "noise", "down"), sums):
        if abs(seconds - wanted.count(name)) > 0.7 * len(sent.edges) + KILL * killed:
            yield f"{seconds:.1f} s are {name} in place of {wanted.count(name)}"


def minutes(data: sqlite3.Connection, sent: Sent) -> Iterator[str]:
    """The blocks of each: those sent are of the bits that were heard, those valid of them without noise."""
    query = (
        "SELECT start + MAX(begin_place, minute * minute_bits) / rate,"
        " start + MIN(end_place, (minute + 1) * minute_bits) / rate, sent, valid"
        " FROM minute_rows JOIN sessions ON sessions.id = session"
    )
    total = 0
    for begin, end, blocks, valid in data.execute(query):
        total += blocks
        if any(begin < after and end > first for first, after in sent.drops):
            continue
        # One may cross an edge of the part, or of the minute.
        if abs(blocks - BLOCKS_PER_SECOND * (end - begin)) > 3:
            yield f"{blocks} blocks in {end - begin:.2f} s at {begin - sent.begin:.0f}"
        # Sync is acquired and lost within a second.
        near = 1 + sum(begin - 1 <= edge <= end + 1 for edge in sent.edges)
        wanted = BLOCKS_PER_SECOND * overlap(sent.sound, begin, end)
        if abs(valid - wanted) > BLOCKS_PER_SECOND * near:
            yield f"{valid} valid blocks in place of {wanted:.0f} at {begin - sent.begin:.0f}"
    heard = overlap(sent.heard, 0.0, 1e12)
    # The end of a watch may cost the last second's.
    lost = 1.5 * len(sent.watched) + sum(end - begin for begin, end in sent.lost)
    if abs(total - BLOCKS_PER_SECOND * heard) > BLOCKS_PER_SECOND * lost:
        yield f"{total} blocks in {heard:.1f} s"


def pairs(kind: str, found: List[Any], wanted: List[Any], off: float, begin: float) -> Iterator[str]:
    """Spans that have to be the same, and what is wrong with them."""
    shown = [
        [[None if edge is None else round(edge - begin, 1) for edge in span] for span in of]
        for of in (found, wanted)
    ]
    fits = len(found) == len(wanted) and all(
        (one is None) == (two is None) and (one is None or abs(one - two) <= off)
        for spans in zip(found, wanted)
        for one, two in zip(*spans)
    )
    if not fits:
        yield f"{kind}: {shown[0]} in place of {shown[1]}"


def outages(data: sqlite3.Connection, sent: Sent) -> Iterator[str]:
    """Noise that was received for longer than a second or two."""
    found = data.execute(
        "SELECT start + outage_rows.begin_place / rate AS at, start + outage_rows.end_place / rate"
        " FROM outage_rows JOIN sessions ON sessions.id = session ORDER BY at"
    ).fetchall()
    wanted = []
    for run in sent.runs:
        first, after = run[0][1], run[-1][2]
        wanted += [
            (max(first, begin), min(after, end)) for begin, end in sent.noise if begin < after and end > first
        ]
    long = [
        [(begin, sent.told_end(end)) for begin, end in spans if end - begin > 3]
        for spans in (found, sorted(wanted))
    ]
    yield from pairs("outages", long[0], long[1], OFF, sent.begin)


def alarms(data: sqlite3.Connection, sent: Sent) -> Iterator[str]:
    for name, wanted in sent.alarms().items():
        query = "SELECT begin_at, end_at FROM alarm_rows WHERE alarm = ? ORDER BY begin_at"
        found = data.execute(query, (name,)).fetchall()
        yield from pairs(name, found, wanted, OFF, sent.begin)


def main(words: List[str]) -> int:
    with open(words[0], encoding="utf-8") as file:
        sent = Sent(json.load(file))
    data = sqlite3.connect(words[1])
    wrong = [line for compare in (states, minutes, outages, alarms) for line in compare(data, sent)]
    print("\n".join(wrong) or f"{sent.end - sent.begin:.0f} s are accounted for")
    return 1 if wrong else 0


if __name__ == "__main__":
    sys.exit(main(sys.argv[1:]))
