"""Repair of an hour's file after a crash."""

import os

from ..rows.parse import parse

TAIL = 1 << 16  # no second of a listing has more bytes


def make_whole(path: str) -> int:
    """Cuts off a torn row, or zeros, at the end of a file, such as after a power failure, and gives its size. All of that is on the
    disk then: a watch that was killed leaves rows that are not."""
    with open(path, "r+b") as file:
        size = file.seek(0, os.SEEK_END)
        begin = max(0, size - TAIL)
        file.seek(begin)
        tail = file.read()
        if begin:
            # The first line may be a part of one.
            skipped = tail.find(b"\n") + 1
            begin, tail = begin + skipped, tail[skipped:]
        whole = begin + _whole(tail)
        if whole < size:
            file.truncate(whole)
        os.fsync(file.fileno())
        return whole


def _whole(tail: bytes) -> int:
    """How many bytes of some lines are whole rows."""
    lines = tail[: tail.rfind(b"\n") + 1]
    if not lines:
        return 0
    if parse(lines)[1] is None:
        return len(lines)
    # From the end on: whole rows that follow a damaged one stay.
    while lines:
        last = lines.rfind(b"\n", 0, -1) + 1
        if parse(lines[last:])[1] is None:
            break
        lines = lines[:last]
    return len(lines)
