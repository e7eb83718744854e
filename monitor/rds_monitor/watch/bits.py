"""From the output of a receiver's command to packed bits, or to symbols."""

import json
import math
from typing import Optional, Sequence

import numpy

from ..rows.clock import RATE
from ..signal.pack import Packer
from ..signal.receiver import Capture, Strength
from ..signal.samples import FORMS, channels_of, checked, numbers
from .table import StationTable


class Packed:
    """Takes bytes as they come and gives packed bits: here bits that are packed already. Soft ones give symbols in place of bits. `delay`
    is by how many seconds the last bit is older than the last byte; `strength` is that of the signal since the last call that gave bits.
    """

    delay = 0.0
    strength: Optional[Strength] = None

    def __init__(self, soft: bool = False):
        self._soft = soft

    def _seconds(self, data: bytes) -> float:
        return len(data) * (1 if self._soft else 8) / RATE

    def take(self, data: bytes) -> bytes:
        return data

    def finish(self) -> bytes:
        return b""


class Demodulated(Packed):
    """Raw samples of MPX or IQ. At the end up to seven bits are left out: they fill no byte."""

    def __init__(self, table: StationTable):
        assert table.raw is not None and table.rate is not None
        super().__init__(table.soft)
        self._form, self._channels = table.raw, (0, 1) if table.form == "iq" else (0,)
        self._frame = len(self._channels) * FORMS[table.raw][0]
        self._rate = table.rate
        is_iq, offsets = table.form == "iq", [table.offset]
        equalised = offsets if table.equaliser else ()
        self._capture = Capture(table.rate, is_iq, FORMS[table.raw][1], offsets, equalised, table.soft)
        self._odd, self._packer = b"", Packer(not table.soft)
        self._samples = 0

    def take(self, data: bytes) -> bytes:
        data = self._odd + data
        frames = len(data) // self._frame
        self._odd = data[frames * self._frame :]
        if not frames:
            return b""
        kind = "f8" if len(self._channels) == 1 else "f4"
        values = numbers(data[: frames * self._frame], self._form, kind)
        samples = channels_of(values.reshape(frames, -1), self._channels)
        bits = [self._capture.push(block)[0] for block in checked(samples, self._samples)]
        self._samples += frames
        packed = self._packer.push(numpy.concatenate(bits))
        if packed:
            self.strength = self._capture.receivers[0].quality.recent()
        if packed and not self.delay:
            # The receiver waits for later samples: the first bits that it gives tell for how many.
            self.delay = max(0.0, self._samples / self._rate - self._seconds(packed))
        return packed

    def finish(self) -> bytes:
        return self._packer.push(self._capture.finish()[0]) if self._samples else b""


class Lines(Packed):
    """Whole lines of `demod --stations` of one station."""

    def take(self, data: bytes) -> bytes:
        told = [json.loads(line) for line in data.splitlines()]
        packed = b"".join(bytes.fromhex(line["symbols" if self._soft else "bits"]) for line in told)
        if packed:
            self.strength = mean_of([Strength(line["level_dbfs"], line["snr_db"]) for line in told])
        if packed and not self.delay:
            self.delay = max(0.0, told[-1]["seconds"] - self._seconds(packed))
        return packed


def mean_of(parts: Sequence[Strength]) -> Strength:
    """Of equal times, by power; of those that are known."""

    def mean(values: Sequence[Optional[float]]) -> Optional[float]:
        known = [10 ** (value / 10) for value in values if value is not None]
        return round(10 * math.log10(sum(known) / len(known)), 1) if known else None

    return Strength(*(mean(column) for column in zip(*parts)))


def bit_source(table: StationTable) -> Packed:
    if table.receiver:
        return Lines(table.soft)
    return Packed() if table.form == "bits" else Demodulated(table)
