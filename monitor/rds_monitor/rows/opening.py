"""The source of an input, which is told apart by content: a recording, a listing, or groups in hexadecimal."""

import io
import os
import stat
import sys
from typing import Any, Optional, Tuple

from .compressed import decompressed
from .group_lines import GroupLines
from .heads import ROWS, UTF8, is_groups, is_known, is_listing
from .items import Fault, Misuse, Readable, Reading, Source
from .listing import Listing
from .pipe import Pipe
from .recording import CHUNK, Recording


def open_source(path: str, how: Reading = Reading()) -> Source:
    """The source of a file, or of standard input by the name "-". gzip, xz and zstd are decompressed."""
    stream, size = _open(path)
    pipe = stream if isinstance(stream, Pipe) else None
    head = _head_of(stream)
    unpacked = decompressed(stream, head)
    if unpacked:
        stream, size, head = unpacked, None, _head_of(unpacked)
    # Symbols may look like any other text.
    may_be_text = not how.hex and (not how.rules.margin or head.removeprefix(UTF8).startswith(ROWS))
    if may_be_text and (is_groups(head) or is_listing(head) or not head and how.unfinished_ok):
        if pipe and head and not head.startswith(b"total,"):
            pipe.decode(b"", synced=True)
        if is_groups(head):
            return GroupLines(stream, head)
        return Listing(stream, head, how)
    if not head:
        raise Fault("the input is empty")
    if how.length is not None:
        raise Misuse("--length is for a listing, and the input is a recording")
    return Recording(stream, head, how, size, pipe)


def _open(path: str) -> Tuple[Readable, Optional[int]]:
    """The stream, and its size if it is a file with a name."""
    try:
        # Without a buffer, so that the rows of a stream are read as they come.
        given: Any = sys.stdin.buffer if path == "-" else open(path, "rb", buffering=0)
        stream = getattr(given, "raw", given)
    except OSError as error:
        raise Fault(f"{path!r} cannot be read: {error.strerror}") from None
    try:
        status = os.fstat(stream.fileno())
    except io.UnsupportedOperation:
        return stream, None  # bytes in memory
    if not stat.S_ISREG(status.st_mode):
        return Pipe(stream), None
    return stream, None if path == "-" else status.st_size


def _head_of(stream: Readable) -> bytes:
    """The first bytes: some thousands, or all there are, or as many as a pipe gives until they say what they are."""
    data = b""
    while len(data) < 4096 and not is_known(data):
        more = stream.read(CHUNK)
        if not more:
            break
        data += more
    return data
