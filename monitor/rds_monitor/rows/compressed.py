"""Compressed inputs, identified by their first bytes: gzip, xz and zstd."""
import importlib
import lzma
import zlib
from typing import Any, Callable, Dict, Optional

from .items import Fault, Readable

CHUNK = 1 << 16
HEAD = 6  # bytes that say how an input is compressed


def zstandard(else_fault: str) -> Any:
    """The module, or an error."""
    try:
        return importlib.import_module("zstandard")
    except ImportError:
        raise Fault(else_fault) from None


_NO_ZSTD = "the input is compressed with zstd: install python3-zstandard, or use zstd -dc"
# By the first bytes: the name, and what decompresses one stream.
_FORMATS: Dict[bytes, tuple[str, Callable[[], Any]]] = {
    b"\x1f\x8b\x08": ("gzip", lambda: zlib.decompressobj(wbits=31)),
    b"\xfd7zXZ\0": ("xz", lzma.LZMADecompressor),
    b"\x28\xb5\x2f\xfd": ("zstd", lambda: zstandard(_NO_ZSTD).ZstdDecompressor().decompressobj()),
}
_ERRORS = (zlib.error, lzma.LZMAError)


def decompressed(stream: Readable, head: bytes) -> Optional["Decompressed"]:
    """The decompressed bytes of a stream that begins with `head`, or None if it is not compressed."""
    for magic, (name, start) in _FORMATS.items():
        if head.startswith(magic):
            return Decompressed(stream, head, name, start)
    return None


class Decompressed:
    """One compressed stream or several, one after the other, as they come."""

    def __init__(self, stream: Readable, head: bytes, name: str, start: Callable[[], Any]) -> None:
        self._stream, self._head, self._name, self._start = stream, head, name, start
        self._decoder: Any = start()
        self._ready = b""

    def read(self, size: int = CHUNK) -> bytes:
        """Up to `size` bytes; none at the end. A stream that is cut off or damaged is an error."""
        while not self._ready:
            data, self._head = self._head or self._stream.read(CHUNK), b""
            if data:
                self._ready = self._decode(data)
            elif self._decoder:
                raise Fault(f"the {self._name} data ends early: the file was cut off")
            else:
                return b""
        found, self._ready = self._ready[:size], self._ready[size:]
        return found

    def _decode(self, data: bytes) -> bytes:
        self._decoder = self._decoder or self._start()
        try:
            found: bytes = self._decoder.decompress(data)
        except Exception as error:  # each library has its own, and zstandard is optional
            if not isinstance(error, _ERRORS) and type(error).__name__ != "ZstdError":
                raise
            raise Fault(f"the {self._name} data is damaged: {error}") from None
        if self._decoder.eof:
            self._head, self._decoder = self._decoder.unused_data, None  # another stream may follow
        return found
