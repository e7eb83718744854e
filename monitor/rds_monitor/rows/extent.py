"""From where to where an input tells something, and its items on the way."""

import os
import sys
import time
from itertools import chain, islice
from typing import Any, Iterable, Iterator, Optional, Sequence

from .items import Rows, Source
from .listing import begins_of, ends_of


class Progress:
    """A line on standard error, if that is a terminal, that tells how far long work is, at most twice a second."""

    def __init__(self, length: Optional[int]):
        self._length, self._next, self._width = length, time.monotonic() + 1, 0
        self._shown = sys.stderr.isatty()

    def at(self, place: int) -> None:
        if not self._shown or time.monotonic() < self._next:
            return
        self._next = time.monotonic() + 0.5
        text = f"{100 * place / self._length:.0f} %" if self._length else f"{place / 1187.5 / 3600:.2f} h"
        sys.stderr.write(f"\r{text:{self._width}}")
        sys.stderr.flush()
        self._width = len(text)

    def close(self) -> None:
        """The line is erased."""
        if self._width:
            sys.stderr.write("\r" + " " * self._width + "\r")
            sys.stderr.flush()


class Extent:
    """A listing without --length ends with its last row, and a part of one begins with its first."""

    def __init__(self, source: Source):
        self._source, self._first, self._last, self._seen = source, 0, 0, False

    def chunks(self) -> Iterator[Rows]:
        progress = Progress(self._source.length)
        for rows in self._source.chunks():
            if len(rows):
                if not self._seen:
                    self._first, self._seen = int(begins_of(rows[:1])[0]), True
                self._last = max(self._last, int(ends_of(rows[-1:])[0]))
                progress.at(self._last)
                yield rows
        progress.close()

    @property
    def begin(self) -> int:
        """0, but for a part of a listing. It counts after the first chunk."""
        return self._first if getattr(self._source, "is_part", False) else 0

    @property
    def end(self) -> int:
        """It counts after the last chunk."""
        return self._last if self._source.length is None else self._source.length

    @property
    def is_soft(self) -> bool:
        """Whether blocks were corrected by soft decisions, as the totals tell too. It counts after the last chunk."""
        totals = self._source.totals
        return self._source.is_soft or bool(totals and totals.soft)


def replace(path: str, text: str) -> None:
    """Writes a file anew: a reader sees the old one or the new one."""
    with open(f"{path}.new", "w", encoding="utf-8", errors="backslashreplace") as file:
        file.write(text)
    os.replace(f"{path}.new", path)


def write_table(names: Sequence[str], rows: Iterable[Sequence[Any]]) -> int:
    """Names of columns and rows as CSV, once the first row is certain; the exit status. No cell has a comma in it."""
    written = iter(rows)
    for row in chain([names], [*islice(written, 1)], written):
        sys.stdout.write(",".join(map(str, row)) + "\n")
    return 0
