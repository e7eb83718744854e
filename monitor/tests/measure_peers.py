#!/usr/bin/env python3
"""Measures rds beside gr-rds (Debian: gr-rds), and prints the tables of docs/COMPARISON.md. It takes a minute.

    RDS=build/rds monitor/tests/measure_peers.py [--only signal bits] [--seed 1]
    monitor/tests/measure_peers.py --picture > docs/noise.svg    # of the first table on the page
"""

from __future__ import annotations

import argparse
import re
import subprocess
import tempfile
from pathlib import Path
from typing import Any, Dict, List, Sequence

from conftest import TOP, encode, rds
from made import damaged
from measure_demod import RATE, Table, Words, print_table, words_in
from measure_soft import packed, symbols_of
from modulator import mpx, words

PYTHON, READER = "/usr/bin/python3", Path(__file__).with_name("gnuradio_receiver.py")
COUNT = 1000


def by_gnuradio(form: str, data: bytes, *more: str) -> List[Words]:
    """The groups that GNU Radio and gr-rds hand on."""
    with tempfile.NamedTemporaryFile() as file:
        file.write(data)
        file.flush()
        done = subprocess.run([PYTHON, READER, form, file.name, *more], capture_output=True, check=True)
    return [
        tuple(int(line[4 * k : 4 * k + 4], 16) for k in range(4)) for line in done.stdout.decode().split()
    ]


def by_rds(bits: bytes, burst: int = 2) -> List[Words]:
    """The complete groups that rds lists."""
    return words_in(rds("list", "--burst", burst, data=bits))


def told(found: Sequence[Words], sent: Sequence[Words]) -> str:
    """How many of the groups sent were read, and how many others; gr-rds may hand on a group twice."""
    right = {*found} & {*sent}
    return f"{len(right)} ({len({*found} - right)})"


def signal(seed: int, snr: float) -> List[Any]:
    groups = words(seed, COUNT)
    sent = mpx(encode(groups), RATE, snr=snr, seed=seed)
    symbols = symbols_of(sent)
    bits = packed(symbols)[0]
    readings = (
        words_in(rds("list", "--soft", data=symbols.tobytes())),
        by_rds(bits),
        by_gnuradio("bits", bits),
        by_gnuradio("mpx", sent.astype("f4").tobytes(), str(RATE)),
    )
    return [told(found, groups) for found in readings]


def bits(seed: int, rate: float) -> List[Any]:
    groups = words(seed, COUNT)
    heard = damaged(encode(groups), rate, seed)
    return [told(by_rds(heard, burst), groups) for burst in (0, 2, 5)] + [
        told(by_gnuradio("bits", heard), groups)
    ]


TABLES: Dict[str, Table] = {
    "signal": Table(
        (
            "SNR",
            "`demod --soft`, `rds --soft`",
            "`demod`, `rds`",
            "the same bits, gr-rds",
            "GNU Radio, gr-rds",
        ),
        signal,
        {f"{snr:g} dB".replace("-", "−"): (snr,) for snr in (2, 0, -1, -2, -3, -4)},
    ),
    "bits": Table(
        ("Bit errors", "`--burst 0`", "`--burst 2`", "`--burst 5`", "gr-rds"),
        bits,
        {f"{100 * rate:g} %": (rate,) for rate in (0.001, 0.003, 0.01, 0.03)},
    ),
}


# ---- the picture

WIDTH, HEIGHT, LEFT, BELOW, RIGHT = 640, 300, 50, 40, 190
COLOURS = ("#2563eb", "#0b6e4f", "#c05621", "#6b46c1")


def picture(page: str) -> str:
    """The curves of the page's first table of SNR, as SVG: groups of a thousand read by SNR."""
    head, rows = re.findall(r"^\| SNR \| (.*) \|$|^\| (−?\d+ dB \| .*) \|$", page, re.M), []
    names = head[0][0].replace("`", "").split(" | ")
    for _, row in head[1:]:
        snr, *cells = row.replace("−", "-").split(" | ")
        rows.append((float(snr.split()[0]), [int(cell.split()[0]) for cell in cells]))
    low, high = min(snr for snr, _ in rows), max(snr for snr, _ in rows)

    def x(snr: float) -> str:
        return f"{LEFT + (snr - low) / (high - low) * (WIDTH - LEFT - RIGHT):.1f}"

    def y(count: float) -> str:
        return f"{10 + (1 - count / COUNT) * (HEIGHT - BELOW - 10):.1f}"

    def text(left: Any, top: Any, words: str, more: str = "") -> str:
        return f'<text x="{left}" y="{top}"{more}>{words}</text>'

    centre = ' text-anchor="middle"'
    parts = [text(x(snr), HEIGHT - BELOW + 18, f"{snr:g}".replace("-", "−"), centre) for snr, _ in rows]
    parts.append(text(x((low + high) / 2), HEIGHT - 6, "SNR, dB", centre))
    for share in (0, 0.25, 0.5, 0.75, 1):
        level = y(share * COUNT)
        parts.append(f'<path d="M{LEFT} {level}H{WIDTH - RIGHT}" stroke="#ddd"/>')
        parts.append(text(LEFT - 6, level, f"{share:.0%}", ' text-anchor="end" dy="4"'))
    for number, (name, colour) in enumerate(zip(names, COLOURS)):
        points = " ".join(f"{x(snr)},{y(counts[number])}" for snr, counts in rows)
        parts.append(f'<polyline points="{points}" fill="none" stroke="{colour}" stroke-width="2"/>')
        parts.append(text(WIDTH - RIGHT + 8, 30 + 20 * number, name, f' fill="{colour}"'))
    size = f'width="{WIDTH}" height="{HEIGHT}" viewBox="0 0 {WIDTH} {HEIGHT}"'
    back = '<rect width="100%" height="100%" fill="#fff"/>'
    style = 'font-family="sans-serif" font-size="12" fill="#333"'
    lines = "\n".join([back, *parts])
    return f'<svg xmlns="http://www.w3.org/2000/svg" {size} {style}>\n{lines}\n</svg>\n'


def main() -> None:
    parser = argparse.ArgumentParser(
        description=__doc__, formatter_class=argparse.RawDescriptionHelpFormatter
    )
    parser.add_argument("--only", nargs="+", choices=[*TABLES], default=[*TABLES])
    parser.add_argument("--seed", type=int, default=1)
    parser.add_argument("--picture", action="store_true")
    options = parser.parse_args()
    if options.picture:
        print(picture((TOP / "docs" / "COMPARISON.md").read_text(encoding="utf-8")), end="")
        return
    for name in options.only:
        print_table(TABLES[name], options.seed)


if __name__ == "__main__":
    main()
