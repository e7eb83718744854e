"""A recording of packed bits, or of symbols, as a source of rows."""

from itertools import chain
from typing import Iterator, Optional

from .decoders import decoder_of
from .items import LONGEST, Fault, Readable, Reading, Rows, Totals
from .pipe import Pipe

CHUNK = 1 << 18
SOFT_JOBS = ("follow", "list")  # by `list` all rows come at the end


class Recording:
    """Packed bits, decoded chunk by chunk."""

    def __init__(
        self, stream: Readable, head: bytes, how: Reading, size: Optional[int], pipe: Optional[Pipe]
    ):
        self.is_soft = how.rules.margin > 0
        self.length = how.bits
        if how.bits is None and size is not None and not how.hex:
            self.length = max(0, size - 1) if self.is_soft else 8 * size
        self.totals: Optional[Totals] = None
        self._stream, self._head, self._bits, self._hex = stream, head, how.bits, how.hex
        self._gaps, self._pipe = how.gaps, pipe
        # Without a decoder there is no source.
        # The program would end with its last bit, and symbols come one by one.
        bits = None if self.is_soft else how.bits
        self._decoder = decoder_of(soft=SOFT_JOBS if self.is_soft else ())[0](how.rules, how.gaps, bits)

    def chunks(self) -> Iterator[Rows]:
        return self._of_symbols() if self.is_soft else self._of_bits()

    def _of_symbols(self) -> Iterator[Rows]:
        """Of one symbol more than bits."""
        left = LONGEST if self._bits is None else self._bits + 1
        for data in self._bytes():
            yield self._push(data[:left])
            left -= len(data)
            if left <= 0:
                break
        if self._bits is not None and left > 0:
            raise self._too_few()
        yield self._finish(b"", 0)

    def _too_few(self) -> Fault:
        held = f"the input has {self._decoder.place} bits, fewer than the {self._bits} of --bits"
        return Fault(f"refused 4 BitsPastBytes: {held}")

    def _of_bits(self) -> Iterator[Rows]:
        left = self._bits
        for data in self._bytes():
            if left is not None and 8 * len(data) >= left:
                whole = max(0, left - 1) // 8  # the program would end with its last bit
                yield self._push(data[:whole])
                yield self._finish(data[whole : whole + 1], left - 8 * whole)
                return
            yield self._push(data)
            left = None if left is None else left - 8 * len(data)
        if left:
            raise self._too_few()
        yield self._finish(b"", 0)

    def _push(self, data: bytes) -> Rows:
        rows = self._decoder.push(data)
        if self._pipe:
            self._pipe.decode(data, len(rows) > 0, self.is_soft)
        return rows

    def _finish(self, data: bytes, bits: int) -> Rows:
        self.length = length = self._decoder.place + bits
        if self._gaps and self._gaps[-1][1] > length:
            end = f"a gap ends at {self._gaps[-1][1]}, past the {length} bits of the recording"
            raise Fault(f"refused 16 BadGaps: {end}")
        rows, self.totals = self._decoder.finish(data, bits)
        return rows

    def _bytes(self) -> Iterator[bytes]:
        read = chain([self._head], iter(lambda: self._stream.read(CHUNK), b""))
        return _unhexed(read) if self._hex else read


def _unhexed(chunks: Iterator[bytes]) -> Iterator[bytes]:
    odd = b""
    for chunk in chunks:
        digits = odd + chunk.translate(None, b" \t\r\n\v\f")
        even = len(digits) // 2 * 2
        odd = digits[even:]
        try:
            yield bytes.fromhex(digits[:even].decode("ascii"))
        except ValueError:
            raise Fault("refused 11 HexText: a byte is neither a hexadecimal digit nor blank") from None
    if odd:
        raise Fault("refused 11 HexText: an odd number of hexadecimal digits")
