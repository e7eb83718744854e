"""Compresses hours' files that are closed."""

import os

from ..rows.compressed import zstandard
from .records import Records
from .writer import sync_folder

SUFFIX = ".zst"


def compress(folder: str, path: str, records: Records) -> None:
    """Replaces an hour's file by a compressed one. Wherever this is killed, one of them is whole and in the database, and the next call
    does the rest."""
    plain = os.path.join(folder, path)
    if not os.path.exists(plain):
        return  # without rows, or deleted by somebody
    new, made = f"{plain}{SUFFIX}.new", f"{plain}{SUFFIX}"
    try:
        with open(plain, "rb") as source, open(new, "wb") as file:
            compressor = zstandard("compressing needs python3-zstandard").ZstdCompressor(write_checksum=True)
            compressor.copy_stream(source, file, size=os.fstat(source.fileno()).st_size)
            file.flush()
            os.fsync(file.fileno())
            os.utime(file.fileno(), ns=(os.fstat(source.fileno()).st_mtime_ns,) * 2)
    except OSError:
        if os.path.exists(new):
            os.unlink(new)
        raise
    os.replace(new, made)
    sync_folder(os.path.dirname(made))
    records.rename(path, path + SUFFIX)
    os.unlink(plain)
