#!/usr/bin/env python3
"""Measures soft decisions beside corrected bursts, and judges them. It takes minutes.

    RDS=build/rds monitor/tests/measure_soft.py [--only "−3 dB" noise] [--seeds 1 2 3 4] [--groups 2000]

A cell has how many groups were read as they were sent, and in parentheses how many others, as means of the seeds.
"""

from __future__ import annotations

import argparse
import sys
from typing import Callable, Dict, List, NamedTuple, Sequence, Tuple

import numpy
from conftest import encode, rds
from measure_demod import RATE, Words, bits_of, words_in
from modulator import Array, dropped, mpx, words

from rds_monitor.signal.receiver import Capture

BURSTS = (0, 2, 5)
# Blocks of noise between two groups. They are read, since sync is lost at the 64th bad block.
FORCED, LOCKS = 60, 100


def white(sent: bytes, snr: float, seed: int) -> Array:
    return mpx(sent, RATE, snr=snr, seed=seed)


def faded(sent: bytes, snr: float, seed: int) -> Array:
    """The signal falls by 10 dB once in 0.7 s; the noise does not."""
    clean, noisy = (white(sent, own, seed) for own in (300, snr))
    depth = 5 * (1 - numpy.cos(2 * numpy.pi * numpy.arange(clean.size) / (0.7 * RATE)))
    return clean * 10 ** (-depth / 20) + noisy - clean


def cut(sent: bytes, snr: float, seed: int) -> Array:
    """A hundred samples are dropped each second."""
    return dropped(white(sent, snr, seed), 100, RATE)


class Limit(NamedTuple):
    """Of 2,000 groups by soft decisions: the fewest right ones and the most others."""

    right: int
    wrong: int


class Case(NamedTuple):
    made: Callable[[bytes, float, int], Array]
    snr: float
    limit: Limit = Limit(0, 2000)


CASES: Dict[str, Case] = {
    "0 dB": Case(white, 0),
    "−1 dB": Case(white, -1),
    "−2 dB": Case(white, -2, Limit(1950, 3)),
    "−3 dB": Case(white, -3, Limit(1880, 8)),
    "−4 dB": Case(white, -4, Limit(1620, 30)),
    "−5 dB": Case(white, -5),
    "−6 dB": Case(white, -6),
    "fading, 0 dB": Case(faded, 0),
    "dropped, 0 dB": Case(cut, 0),
    "dropped, 4 dB": Case(cut, 4, Limit(0, 2)),
}


def symbols_of(signal: Array) -> Array:
    """As the receiver gives them for soft decisions."""
    (symbols,) = bits_of(Capture(RATE, soft=True), signal)
    return symbols.view("i1")


def packed(symbols: Array) -> Tuple[bytes, int]:
    """Their bits: one more for each two that are unlike."""
    above = symbols > 0
    return numpy.packbits(above[1:] != above[:-1]).tobytes(), symbols.size - 1


def readings(symbols: Array) -> List[List[Words]]:
    """The complete groups by each rule."""
    bits, count = packed(symbols)
    texts = [rds("list", "--burst", burst, "--bits", count, data=bits) for burst in BURSTS]
    return [words_in(text) for text in (*texts, rds("list", "--soft", data=symbols.tobytes()))]


def counted(case: Case, groups: Sequence[Words], seed: int) -> List[Tuple[int, int]]:
    """Of each rule how many groups were read as sent, and how many others."""
    found = readings(symbols_of(case.made(encode(groups), case.snr, seed)))
    return [(len({*some} & {*groups}), len({*some} - {*groups})) for some in found]


def print_case(name: str, count: int, seeds: Sequence[int]) -> bool:
    """Whether soft decisions are within their limit."""
    case = CASES[name]
    found = numpy.mean([counted(case, words(seed, count), seed) for seed in seeds], axis=0)
    print(
        f"| {name} | " + " | ".join(f"{right:.0f} ({wrong:.3g})" for right, wrong in found) + " |", flush=True
    )
    right, wrong = found[-1] * 2000 / count
    return bool(right >= case.limit.right and wrong <= case.limit.wrong)


def forced_locks(seed: int) -> Tuple[int, int]:
    """Blocks of noise that were read, and how many of them were corrected."""
    # Between a group and noise is a bit as well.
    size = 26 * FORCED - 1
    heard = symbols_of(
        numpy.random.default_rng(seed).standard_normal(int(LOCKS * size / 1187.5 * RATE) + RATE)
    )
    group = numpy.unpackbits(numpy.frombuffer(encode(words(seed, 1)), "u1"))[:104]
    signs = numpy.bitwise_xor.accumulate(numpy.append(numpy.uint8(0), group))
    sent = numpy.where(signs, 127, -127).astype("i1")
    parts = [part for lock in range(LOCKS) for part in (sent, heard[lock * size :][:size])]
    text = rds("list", "--soft", "--loss", 64, data=numpy.concatenate(parts).tobytes()).decode()
    blocks = [cell for line in text.splitlines() if line.startswith("group,") for cell in line.split(",")[4:]]
    return sum(cell == "lost" or "~" in cell for cell in blocks), sum("~" in cell for cell in blocks)


def print_noise(seeds: Sequence[int]) -> bool:
    """Whether at most one in a thousand is corrected."""
    read, corrected = numpy.sum([forced_locks(seed) for seed in seeds], axis=0)
    print(f"\n{corrected} of {read} blocks of noise were corrected in forced locks", flush=True)
    return bool(read > 0.99 * FORCED * LOCKS * len(seeds) and 1000 * corrected <= read)


def main() -> None:
    shape = argparse.RawDescriptionHelpFormatter
    parser = argparse.ArgumentParser(description=__doc__, formatter_class=shape)
    parser.add_argument("--only", nargs="+", choices=[*CASES, "noise"], default=[*CASES, "noise"])
    parser.add_argument("--seeds", nargs="+", type=int, default=[1, 2, 3, 4])
    parser.add_argument("--groups", type=int, default=2000)
    options = parser.parse_args()
    head = ["signal", *(f"`--burst {burst}`" for burst in BURSTS), "`--soft`"]
    print(f"| {' | '.join(head)} |\n{'|---' * len(head)}|")
    bad = [
        name for name in options.only if name in CASES and not print_case(name, options.groups, options.seeds)
    ]
    bad += ["noise"] if "noise" in options.only and not print_noise(options.seeds) else []
    if bad:
        sys.exit(f"past the limits: {', '.join(bad)}")


if __name__ == "__main__":
    main()
