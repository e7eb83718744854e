"""An input that is no file: nothing that was written waits while it does, and standard error tells of sync."""

import select
import sys
import time
from typing import Any

import numpy

from .blocks import BlockCounter

PATIENCE = 2.0  # seconds without sync after which that is said


class Pipe:
    """A stream that is read as it comes. It says if there is no sync after some time, and then once there is."""

    def __init__(self, stream: Any):
        self._stream, self._began = stream, time.monotonic()
        self._blocks, self._told, self._synced = BlockCounter(), False, False

    def read(self, size: int, /) -> bytes:
        sys.stdout.flush()  # the reader of the output has all of it before more is waited for
        rest = max(0.0, self._began + PATIENCE - time.monotonic())
        if not (self._told or self._synced or select.select([self._stream], [], [], rest)[0]):
            self._tell()
        data: bytes = self._stream.read(size)
        return data

    def decode(self, data: bytes, synced: bool, soft: bool = False) -> None:
        """These bytes were decoded, of bits or of symbols, and gave a row or none yet."""
        if self._synced:
            return
        self._synced = synced
        if synced and self._told:
            say(f"sync after {time.monotonic() - self._began:.1f} s")
        if not synced and not self._told:
            above = numpy.frombuffer(data, "i1") > 0
            bits = numpy.diff(above).astype("u1") if soft else numpy.unpackbits(numpy.frombuffer(data, "u1"))
            self._blocks.push(bits)
            if time.monotonic() >= self._began + PATIENCE:
                self._tell()

    def _tell(self) -> None:
        self._told, bits = True, self._blocks.bits
        say(f"no sync yet: {f'{self._blocks.blocks} valid blocks in {bits:,} bits' if bits else 'no input'}")


def say(text: str) -> None:
    sys.stderr.write(f"rds-monitor: {text}\n")
    sys.stderr.flush()
