"""The end of a stream of symbols, which librds does not tell: the group in progress, and the totals."""

import numpy

from .items import BLOCK_BITS, BLOCKS, CORRECTED, GROUP, GROUP_BITS
from .items import Rows, Totals, add_totals, chosen, totals_of
from .listing import SOFT_NAMES, ends_of, groups_in, kinds_of, places_of
from .parse import read_pattern, set_types

PADDING = bytes(2 * GROUP_BITS)  # erasures that complete a group in progress
NONE = Totals(0, (0,) * 5, 0, 0, 0, 0, 0, 0, (0,) * len(SOFT_NAMES))


def rows_before(rows: Rows, end: int) -> Rows:
    """The rows of the bits before this position; of the group in progress the blocks that end there."""
    found = rows.copy()
    groups, places = found["what"] == GROUP, places_of(found)
    for block in BLOCKS:
        past = groups & (places[:, block - 1] + BLOCK_BITS > end)
        for name in ("kind", "offset", "info", "burst"):
            found[f"{name}{block}"][past] = 0
    kept = numpy.where(groups, read_pattern(found) > 0, ends_of(found) <= end)
    found, groups = chosen(found, kept), groups[kept]
    of_groups = chosen(found, groups)
    set_types(of_groups)
    for name in ("number", "version", "conflict"):
        found[name][groups] = of_groups[name]
    return found


class SoftTotals:
    """Totals of rows, whose blocks were corrected by the smaller one of the two sets of flips that make their mask. The nearest flips are
    ten at most: of eleven some could be left out, with the same offset word, since their masks have remainders of ten bits.
    """

    def __init__(self) -> None:
        self._totals = NONE

    def take(self, rows: Rows) -> Totals:
        """The totals with these rows."""
        counts = numpy.bincount(numpy.minimum(flips_of(groups_in(rows)), len(NONE.soft)), minlength=7)[1:]
        soft = tuple(int(one + more) for one, more in zip(self._totals.soft, counts))
        self._totals = add_totals(self._totals, totals_of(rows))._replace(bursts=NONE.bursts, soft=soft)
        return self._totals


def flips_of(groups: Rows) -> Rows:
    """How many symbols were flipped in each corrected block."""
    at, blocks = numpy.nonzero(kinds_of(groups) == CORRECTED)
    masks = numpy.stack([groups[f"burst{block}"] for block in BLOCKS], axis=1)[at, blocks]
    bits = masks[:, None] >> numpy.arange(BLOCK_BITS - 1, -1, -1, dtype="u4") & 1
    # A bit is inverted if one of the symbols beside it is flipped: from the first symbol on, which is not.
    count = numpy.bitwise_xor.accumulate(bits, axis=1).sum(axis=1, dtype="i8")
    found: Rows = numpy.minimum(count, BLOCK_BITS + 1 - count)
    return found
