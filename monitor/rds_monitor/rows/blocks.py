"""Which bits are inside blocks of RDS: the reception that a decoder can have (IEC 62106, clauses 2.3 and annex A)."""

from itertools import accumulate
from typing import Optional

import numpy
from numpy.lib.stride_tricks import sliding_window_view
from numpy.typing import NDArray

from .items import BLOCK_BITS, GROUP_BITS

GENERATOR = 0x5B9  # of degree 10
# The number of the block by its offset word: A, B, C and C', D. Of other remainders -1.
NUMBERS = numpy.full(1024, -1)
NUMBERS[[0x0FC, 0x198, 0x168, 0x350, 0x1B4]] = 0, 1, 2, 2, 3

# That of each bit of a block, the first bit first.
_DOUBLED = accumulate([1] * BLOCK_BITS, lambda rest, _: rest << 1 ^ (GENERATOR if rest >> 9 else 0))
REMAINDERS = [*_DOUBLED][::-1]


class BlockCounter:
    """Counts bits, and those in blocks with an offset word beside a block with the offset word that belongs there."""

    KEPT = 3 * BLOCK_BITS - 1  # a block with those before and after it, less one bit
    MOST_UNKNOWN = 5  # bits of a block, of which few combinations have an offset word by chance

    def __init__(self) -> None:
        self._columns = numpy.array(REMAINDERS, "u2")
        self._rest: NDArray[numpy.uint8] = numpy.zeros(0, "u1")
        self.bits = self.blocks = self._last = 0
        # The remainder of the places of groups, as most of the last blocks tell: none without blocks for two groups.
        self.phase: Optional[int] = None

    def push(self, bits: NDArray[numpy.uint8]) -> None:
        self.bits += bits.size
        bits = numpy.concatenate([self._rest, bits])
        self._rest = bits[-self.KEPT :]
        if bits.size <= self.KEPT:
            return
        # The windows, but for those too near to either end, that are such blocks.
        windows = sliding_window_view(bits, BLOCK_BITS)
        numbers = NUMBERS[numpy.bitwise_xor.reduce(windows * self._columns, axis=1)]
        before, after = numbers[:-BLOCK_BITS], numbers[BLOCK_BITS:]
        pairs = (before >= 0) & (after == (before + 1) % 4)
        found = BLOCK_BITS + numpy.flatnonzero(pairs[BLOCK_BITS:] | pairs[:-BLOCK_BITS])
        self.blocks += found.size
        if found.size:
            phases = self.bits - bits.size + found - BLOCK_BITS * numbers[found]
            self.phase, self._last = int(numpy.bincount(phases % GROUP_BITS).argmax()), self.bits
        elif self.bits > self._last + 2 * GROUP_BITS:
            self.phase = None

    def parity_over(self, count: int, after: NDArray[numpy.uint8]) -> Optional[int]:
        """The sum modulo 2 of the next `count` bits, which are not known, by the block that they are in: with the bits before and after
        them it has the offset word of its place by one of these sums alone."""
        if self.phase is None or count > self.MOST_UNKNOWN:
            return None
        begun = (self.bits - self.phase) % BLOCK_BITS
        window = numpy.concatenate([self._rest[self._rest.size - begun :], numpy.zeros(count, "u1"), after])
        if window.size < BLOCK_BITS or begun + count > BLOCK_BITS:
            return None
        known = numpy.bitwise_xor.reduce(window[:BLOCK_BITS] * self._columns)
        number = (self.bits - begun - self.phase) % GROUP_BITS // BLOCK_BITS
        unknown = numpy.unpackbits(numpy.arange(1 << count, dtype="u1")[:, None], axis=1)[:, 8 - count :]
        rests = known ^ numpy.bitwise_xor.reduce(unknown * self._columns[begun : begun + count], axis=1)
        sums = {*(unknown[NUMBERS[rests] == number].sum(axis=1) % 2).tolist()}
        return sums.pop() if len(sums) == 1 else None

    @property
    def share(self) -> float:
        """The share of the bits that are in such blocks."""
        return min(1.0, BLOCK_BITS * self.blocks / self.bits) if self.bits else 0.0
