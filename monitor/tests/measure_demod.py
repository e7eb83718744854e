#!/usr/bin/env python3
"""Measures the demodulator, and prints the tables of docs/ACCURACY.md and docs/PERFORMANCE.md. It takes minutes.

    RDS=build/rds monitor/tests/measure_demod.py [--only noise levels jumps neighbour multipath time stations] [--seed 1]
"""

from __future__ import annotations

import argparse
import resource
import subprocess
import tempfile
from typing import Any, Callable, Dict, List, NamedTuple, Sequence, Tuple

import numpy
from captures import NARROW, Sent, alone, captured
from conftest import COMMAND, encode, rds
from made import peak_memory
from modulator import Array, dropped, iq, mpx, stored, wav, words

from rds_monitor.signal.receiver import Capture

Words = Tuple[int, ...]
RATE = 192000


def words_in(listing: bytes) -> List[Words]:
    """The words of the complete groups of a listing."""
    rows = [line.split(",") for line in listing.decode().splitlines()]
    whole = (row[4:] for row in rows if row[0] == "group" and not {"none", "lost"} & {*row[4:]})
    return [tuple(int(block.split(":")[1][:4], 16) for block in blocks) for blocks in whole]


def whole_groups(bits: bytes) -> List[Words]:
    """The words of the complete groups that rds finds."""
    return words_in(rds("list", data=bits))


def bits_of(capture: Capture, signal: Array, block: int = 65536) -> List[Array]:
    """The bits of each station of a signal that is handed over a block at a time."""
    parts = [capture.push(signal[at : at + block]) for at in range(0, signal.size, block)]
    return [numpy.concatenate(bits) for bits in zip(*parts, capture.finish())]


def received(
    signal: Array, rate: int, block: int = 65536, offset: float = 0.0, equalise: bool = False
) -> Tuple[List[Words], Any]:
    """The groups of a signal, and the report."""
    offsets = [offset]
    capture = Capture(rate, numpy.iscomplexobj(signal), 1.0, offsets, offsets if equalise else ())
    (bits,) = bits_of(capture, signal, block)
    return whole_groups(numpy.packbits(bits).tobytes()), capture.receivers[0].quality.report()


def right(groups: Sequence[Words], signal: Array, rate: int = RATE, **options: Any) -> int:
    """How many of the groups are received as they were sent."""
    return len(set(received(signal, rate, **options)[0]) & set(groups))


# ---- rows


def noise(seed: int, snr: float) -> List[Any]:
    groups = words(seed, 500)
    return [sum(right(groups, mpx(encode(groups), RATE, snr=snr, seed=own)) for own in (seed, seed + 1))]


def jumps(seed: int, change: Dict[str, float], lost: int) -> List[Any]:
    """`lost` samples are dropped each second."""
    groups = words(seed, 120)
    signals = (mpx(encode(groups), RATE, snr=snr, seed=seed, **change) for snr in (30, 5, 0, -2))
    return [right(groups, dropped(signal, lost, RATE) if lost else signal) for signal in signals]


def levels(seed: int, rate: int, cnr: float) -> List[Any]:
    """Of a silent and a loud programme, with 2.25 kHz."""
    found = []
    for loudness in (0, 0.8):
        signal = iq(mpx(encode(words(seed, 40)), rate, snr=60, loudness=loudness), rate, cnr=cnr, seed=seed)
        found += [received(signal, rate, equalise=value)[1]["rds_khz"] for value in (False, True)]
    return found


def multipath(seed: int, paths: List[Tuple[float, float, float, float]], cnr: float) -> List[Any]:
    groups, rate = words(seed, 100), 256000
    signal = iq(mpx(encode(groups), rate, snr=60), rate, paths, cnr, seed=seed)
    return [right(groups, signal, rate, equalise=value) for value in (False, True)]


def neighbour(seed: int, level: float) -> List[Any]:
    """Without it, with one 200 kHz away and 20 dB stronger, and without it by 1 dB more noise."""
    groups, rate, seconds = words(seed, 48), 2 * NARROW, 4.0
    sent = [Sent(0.0, encode(groups)), Sent(200e3, encode(words(seed + 1, 48)), 20.0)]
    signals = [alone(one, seconds, seed + number) for number, one in enumerate(sent)]
    return [
        right(groups, captured(sent[:count], rate, seconds, noise_level, signals[:count]), rate)
        for count, noise_level in ((1, level), (2, level), (1, level + 1))
    ]


class Table(NamedTuple):
    columns: Sequence[str]
    row: Callable[..., List[Any]]
    cases: Dict[str, Tuple[Any, ...]]  # by the first cells of their rows


TABLES = {
    "noise": Table(
        ("SNR", "received of 1000"),
        noise,
        {f"{snr:g} dB".replace("-", "−"): (snr,) for snr in (4, 2, 0, -1, -2, -3, -4)},
    ),
    "jumps": Table(
        ("signal", "30 dB", "5 dB", "0 dB", "−2 dB"),
        jumps,
        {
            "no jump": ({}, 0),
            "pilot jumps by 30° four times per second": ({"jump": 30}, 0),
            "100 samples dropped per second": ({}, 100),
            "500 samples dropped per second": ({}, 500),
        },
    ),
    "levels": Table(
        ("samples per second | carrier to noise", "silent", "equalised", "loud", "equalised"),
        levels,
        {
            f"{rate:,} | {cnr} dB": (rate, cnr)
            for rate, ratios in (
                (171000, (15, 50)),
                (250000, (15, 50)),
                (1024000, (30,)),
                (2400000, (15, 50)),
            )
            for cnr in ratios
        },
    ),
    "neighbour": Table(
        ("carrier to noise", "alone", "beside the neighbour", "alone, 1 dB more noise"),
        neighbour,
        {f"{-level} dB": (level,) for level in (-14, -12, -11)},
    ),
    "multipath": Table(
        ("second path | carrier to noise", "without equaliser", "with it"),
        multipath,
        {
            "none | 30 dB": ([], 30),
            "none | 12 dB": ([], 12),
            "10 µs, −6 dB | 15 dB": ([(10, 0.5, 90, 0)], 15),
            "10 µs, −1 dB | 30 dB": ([(10, 0.9, 180, 0)], 30),
            "30 µs, −3 dB | 30 dB": ([(30, 0.7, 90, 0)], 30),
            "10 µs, −3 dB, 2 Hz Doppler | 30 dB": ([(10, 0.7, 0, 2)], 30),
            "30 µs, −2 dB, 10 Hz Doppler | 30 dB": ([(30, 0.8, 0, 10)], 30),
        },
    ),
}


def print_table(table: Table, seed: int) -> None:
    head = "| " + " | ".join(table.columns) + " |"
    print(f"\n{head}\n{'|---' * (head.count('|') - 1)}|")
    for name, case in table.cases.items():
        print(f"| {name} | {' | '.join(map(str, table.row(seed, *case)))} |", flush=True)


def cpu_seconds(*command: str) -> float:
    before = resource.getrusage(resource.RUSAGE_CHILDREN)
    subprocess.run([*COMMAND, *command], capture_output=True, check=True)
    after = resource.getrusage(resource.RUSAGE_CHILDREN)
    return after.ru_utime + after.ru_stime - before.ru_utime - before.ru_stime


def print_times() -> None:
    """Of a minute of 192 kHz MPX in WAV, and of 1.024 MHz IQ."""
    groups = words(4, 684)
    minute = wav(stored(mpx(encode(groups), RATE), "s16"), "s16", RATE)
    part = stored(iq(mpx(encode(groups[:114]), 1024000), 1024000, cnr=30), "u8")
    print("\n| A minute of | CPU s | peak MB |\n|---|---|---|")
    raw = ("--raw", "u8", "--iq", "--rate", "1024000")
    for name, data, options in (
        ("192 kHz MPX", minute, ()),
        ("1.024 MHz IQ, without equaliser", part * 6, (*raw, "--no-equaliser")),
        ("1.024 MHz IQ", part * 6, raw),
    ):
        with tempfile.NamedTemporaryFile() as file:
            file.write(data)
            file.flush()
            command = ("demod", *options, "--output", "/dev/null", file.name)
            print(f"| {name} | {cpu_seconds(*command):.2f} | {peak_memory(*command, data=b'') // 1024} |")


def spread(count: int, rate: int) -> List[float]:
    """Offsets of stations all over a band."""
    apart = (rate - 200e3) / max(1, count - 1) // 50e3 * 50e3
    return [apart * (number - (count - 1) / 2) // 50e3 * 50e3 for number in range(count)]


def per_second(folder: str, part: bytes, seconds: float, *options: str) -> Tuple[float, int]:
    """Processor seconds per second of a raw capture, without those of the start, and the peak of memory in MB."""
    used, path = [], f"{folder}/capture"
    for times in (1, 4):
        with open(path, "wb") as file:
            for _ in range(times):
                file.write(part)
        used.append(cpu_seconds("demod", "--raw", "u8", *options, path))
    return (used[1] - used[0]) / (3 * seconds), peak_memory(
        "demod", "--raw", "u8", *options, path, data=b""
    ) // 1024


def print_stations() -> None:
    """Of stations of one capture, beside as many runs of `demod --offset`."""
    print(
        "\n| samples per second | stations | processor | each more | peak MB | most on one processor |\n|---|---|---|---|---|---|"
    )
    for rate, seconds, counts in ((2400000, 3.0, (1, 8)), (10000000, 1.5, (1, 24))):
        offsets = spread(counts[1], rate)
        sent = [Sent(offset, encode(words(1, int(12 * seconds)))) for offset in offsets]
        signal = captured(sent, rate, seconds, -40, [alone(sent[0], seconds, 1)] * len(sent))
        part = stored(signal, "u8", float(numpy.abs(signal).max()))
        common = ("--rate", str(rate))
        with tempfile.TemporaryDirectory() as folder:
            found = []
            for count in counts:
                at = ",".join(f"{offset:.0f}" for offset in offsets[:count])
                options = (*common, "--stations", "--centre", "0", f"--at={at}", "--output", f"{folder}/bits")
                found.append((count, *per_second(folder, part, seconds, *options)))
            each = (found[1][1] - found[0][1]) / (counts[1] - 1)
            most = int(1 + (1 - found[0][1]) / each)
            for count, used, memory in found:
                print(f"| {rate:,} | {count} | {used:.2f} | {each:.3f} | {memory} | {most} |", flush=True)
            if rate == 2400000:
                options = ("--iq", *common, "--output", "/dev/null")
                alone_ = [
                    per_second(folder, part, seconds, *options, "--offset", f"{offsets[0]}", *more)[0]
                    for more in (["--no-equaliser"], [])
                ]
                told = " and ".join(f"{8 * one:.2f}" for one in alone_)
                print(
                    f"eight `demod --offset`, without and with the equaliser: {told} of a processor",
                    flush=True,
                )


PRINTED = {"time": print_times, "stations": print_stations}


def main() -> None:
    parser = argparse.ArgumentParser(
        description=__doc__, formatter_class=argparse.RawDescriptionHelpFormatter
    )
    parser.add_argument("--only", nargs="+", choices=[*TABLES, *PRINTED], default=[*TABLES, *PRINTED])
    parser.add_argument("--seed", type=int, default=1)
    options = parser.parse_args()
    for name in options.only:
        if name in PRINTED:
            PRINTED[name]()
        else:
            print_table(TABLES[name], options.seed)


if __name__ == "__main__":
    main()
