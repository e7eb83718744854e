"""The spectrum of a capture with its stations marked, as a page of HTML without scripts."""

import math
from html import escape
from typing import Iterator, List, Sequence

import numpy

from ..page.html import hash_of, read
from ..signal.found import Spectrum
from ..signal.samples import Reals
from ..signal.several import Tuning

WIDTH, HEIGHT, LINE = 1200, 320, 12
LINES = 3  # of names beside each other, since stations may be near
RANGE_DB = 10.0  # between two lines
STYLE = """
.spectrum polyline { fill: none; stroke: var(--missing); stroke-width: 1; vector-effect: non-scaling-stroke; }
.spectrum line { stroke: var(--line); } .spectrum .mark { stroke: var(--lost); }
"""


def picture_of(
    spectrum: Spectrum, tuning: Tuning, marks: List[float], head: Sequence[str], rows: Sequence[Sequence[str]]
) -> str:
    """`marks` are the stations' offsets from the centre, `rows` their rows of the table."""
    css = read("report.css") + STYLE
    policy = f"default-src 'none'; style-src '{hash_of(css)}'; base-uri 'none'; form-action 'none'"
    rate = float(spectrum.offsets[1] - spectrum.offsets[0]) * spectrum.offsets.size
    around = tuning.text(0.0) if tuning.is_known else "the centre"
    drawn = Drawing(spectrum).text(marks, rows)
    title = f"{len(rows)} stations in {rate / 1e6:.6g} MHz around {around}"
    return (
        f'<!DOCTYPE html>\n<html lang="en"><head><meta charset="utf-8"><title>{escape(title)}</title>\n'
        f'<meta http-equiv="Content-Security-Policy" content="{policy}">\n'
        f'<meta name="viewport" content="width=device-width, initial-scale=1">\n<style>{css}</style></head>\n'
        f'<body><h1>{escape(title)}</h1>\n<div class="chart spectrum">{drawn}</div>\n'
        f'<div class="wide">{_table(head, rows)}</div></body></html>\n'
    )


class Drawing:
    """The parts of the picture, in its own units."""

    def __init__(self, spectrum: Spectrum):
        # Mean powers, at most a point per column of pixels.
        power, each = spectrum.power, -(-spectrum.power.size // WIDTH)
        means: Reals = power[: power.size // each * each].reshape(-1, each).mean(axis=1)
        self._decibels = 10 * numpy.log10(numpy.maximum(means, 1e-20))
        self._first, last = float(spectrum.offsets[0]), float(spectrum.offsets[-1])
        self._span = last - self._first
        self._bottom = RANGE_DB * math.floor(float(self._decibels.min()) / RANGE_DB)
        top = RANGE_DB * math.ceil(float(self._decibels.max()) / RANGE_DB)
        self._top = max(top, self._bottom + RANGE_DB)

    def _y(self, decibels: float) -> float:
        return HEIGHT * (self._top - decibels) / (self._top - self._bottom)

    def grid(self) -> Iterator[str]:
        for level in numpy.arange(self._bottom, self._top + RANGE_DB, RANGE_DB).tolist():
            y = self._y(level)
            yield f'<line x1="0" x2="{WIDTH}" y1="{y:.1f}" y2="{y:.1f}"/>'
            yield f'<text x="2" y="{max(11.0, y - 2):.1f}">{level:g} dB</text>'

    def marks(self, offsets: Sequence[float], rows: Sequence[Sequence[str]]) -> Iterator[str]:
        """A line per station, with the frequency, and the PS or else the PI."""
        for number, (offset, row) in enumerate(zip(offsets, rows)):
            x, below = WIDTH * (offset - self._first) / self._span, LINE * (1 + number % LINES)
            name = row[-1].strip() if row[-1] != "-" else row[-2]
            yield f'<line class="mark" x1="{x:.1f}" x2="{x:.1f}" y1="0" y2="{HEIGHT}"/>'
            yield f'<text x="{x:.1f}" y="{HEIGHT + below}" text-anchor="middle">{escape(row[0])}</text>'
            yield f'<text x="{x + 3:.1f}" y="{below}">{escape(name)}</text>'

    def text(self, marks: Sequence[float], rows: Sequence[Sequence[str]]) -> str:
        parts = "".join([*self.grid(), *self.marks(marks, rows), self.line()])
        label = f"the mean power by frequency, in dB of full scale, with {len(rows)} stations"
        shape = f'viewBox="0 0 {WIDTH} {HEIGHT + LINE * LINES + 4}" role="img" aria-label="{escape(label)}"'
        return f"<svg {shape}>{parts}</svg>"

    def line(self) -> str:
        step, levels = WIDTH / (self._decibels.size - 1), self._decibels.tolist()
        points = " ".join(f"{step * n:.1f},{self._y(level):.1f}" for n, level in enumerate(levels))
        return f'<polyline points="{points}"/>'


def _table(head: Sequence[str], rows: Sequence[Sequence[str]]) -> str:
    top = "".join(f'<th scope="col">{escape(text)}</th>' for text in head)
    body = "".join(
        "<tr>" + "".join(f"<td><bdi>{escape(text)}</bdi></td>" for text in row) + "</tr>" for row in rows
    )
    return f"<table><thead><tr>{top}</tr></thead><tbody>{body}</tbody></table>"
