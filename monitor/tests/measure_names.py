#!/usr/bin/env python3
"""Measures how names and texts are told, over independent bit errors. No test, since it takes minutes.

    RDS=build/rds monitor/tests/measure_names.py [SEEDS]

Prints tables in Markdown, the first one the mean of SEEDS stations (8).
"""

from __future__ import annotations

import random
import statistics
import sys
from typing import Any, Iterator, List, NamedTuple, Optional, Sequence, Tuple

import numpy
from conftest import encode, rds
from made import read
from rds_monitor.content.decoder import Decoder
from sent import Words, group, name, text

BITS_PER_SECOND, GROUP_BITS = 1187.5, 104
MINUTES, STATIC_SECONDS, STARTS = 15, 240, 60
# Turns per name, and the share of blocks with bit errors.
CHANGING = ((1, 0.0), (1, 0.03), (2, 0.08), (2, 0.23), (4, 0.41))
STATIC = (0.23, 0.41, 0.74)
WORDS = "NOW ON AIR WITH THE NEWS AND MUSIC FROM ALL OVER EUROPE TODAY LIVE SHOW HITS RADIO FM STAR GOLD JAZZ ROCK".split()
NAME, TEXT = "RADIO 7", "A static text of some length, as sent by many stations"


class Sent(NamedTuple):
    """A name, and the bit position of its first turn."""

    place: int
    name: str


def names(seed: int) -> Iterator[str]:
    """Names of a scrolling PS, no two alike in a row."""
    chosen, last = random.Random(seed), ""
    while True:
        first, second = chosen.choice(WORDS), chosen.choice(WORDS)
        found = chosen.choice((first.ljust(8), f"{first} {second}".ljust(8)[:8], first.center(8)))
        if found != last:
            last = found
            yield found


def station(seconds: float, turns: Optional[int] = None, seed: int = 0) -> Tuple[List[Words], List[Sent]]:
    """Groups, two of five of which are 0A and two 2A; without `turns` the name is static."""
    source, sent, groups = names(seed), [Sent(0, NAME)], []
    queue: List[Words] = []
    long_text = text(TEXT.encode())
    for number in range(int(seconds * BITS_PER_SECOND / GROUP_BITS)):
        if number % 5 in (0, 2):
            if not queue and turns:
                sent.append(Sent(number * GROUP_BITS, next(source)))
            queue = queue or (turns or 1) * name(sent[-1].name.encode())
            groups.append(queue.pop(0))
        elif number % 5 in (1, 3):
            groups.append(long_text[number // 5 * 2 % len(long_text) + (number % 5 == 3)])
        else:
            groups.append(group("1A", 0, 0xE1))
    return groups, sent[1:] if turns else sent


def received(bits: bytes, bad: float, seed: int, start: int = 0) -> Any:
    """The rows of bits from a position on; `bad` is the share of blocks with bit errors."""
    chosen = numpy.random.default_rng(seed)
    unpacked = numpy.unpackbits(numpy.frombuffer(bits, "u1"))[start:]
    flipped = unpacked ^ (chosen.random(unpacked.size) < 1 - (1 - bad) ** (1 / 26))
    return read(rds("list", data=numpy.packbits(flipped).tobytes()))


def told(rows: Any, item: str) -> List[Tuple[int, str]]:
    return [(event.place, event.value) for event in Decoder().feed(rows) if event.item == item]


def right_and_wrong(found: Sequence[Tuple[int, str]], sent: Sequence[Sent]) -> Tuple[int, int]:
    """How many names were told while they were sent or one name later, and how many others."""
    places, right, wrong = [one.place for one in sent], set(), 0
    for place, value in found:
        last = int(numpy.searchsorted(places, place, side="right")) - 1
        which = [k for k in (last, last - 1) if k >= 0 and sent[k].name.rstrip() == value]
        right.update(which[:1])
        wrong += not which
    return len(right), wrong


def print_changing(seeds: int) -> None:
    print("| Turns per name | bad blocks | names sent | told | wrong |\n|---|---|---|---|---|")
    for turns, bad in CHANGING:
        counts = []
        for seed in range(seeds):
            groups, sent = station(60 * MINUTES, turns, seed)
            found = told(received(encode(groups), bad, seed), "ps")
            counts.append((len(sent), *right_and_wrong(found, sent)))
        mean = [statistics.mean(column) for column in zip(*counts)]
        print(f"| {turns} | {bad * 100:.0f} % | {mean[0]:.0f} | {mean[1]:.0f} | {mean[2]:.1f} |", flush=True)


def print_static() -> None:
    print(
        "| Bad blocks | PS told after | wrong per hour | RT told after | wrong per hour |\n|---|---|---|---|---|"
    )
    bits = encode(station(STATIC_SECONDS)[0])
    for bad in STATIC:
        cells = []
        starts = random.Random(5)
        rows = [received(bits, bad, seed, starts.randrange(60 * GROUP_BITS)) for seed in range(STARTS)]
        for item, value in (("ps", NAME), ("rt", TEXT)):
            found = [told(one, item) for one in rows]
            times = [next((place for place, said in events if said == value), None) for events in found]
            shown = [STATIC_SECONDS if time is None else time / BITS_PER_SECOND for time in times]
            wrong = sum(said != value for events in found for _, said in events)
            cells += [f"{statistics.median(shown):.1f} s", f"{wrong * 3600 / STARTS / STATIC_SECONDS:.1f}"]
        print(f"| {bad * 100:.0f} % | " + " | ".join(cells) + " |", flush=True)


def main() -> None:
    print_changing(int(sys.argv[1]) if sys.argv[1:] else 8)
    print_static()


if __name__ == "__main__":
    main()
