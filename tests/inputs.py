"""Inputs that several tests make, always the same ones."""

from __future__ import annotations

import os
from pathlib import Path
from typing import Iterator

import plain
from running import TOP, wrote


def chances(state: int) -> Iterator[int]:
    """Pseudo-random numbers below 2^31 - 1."""
    while True:
        state = state * 16807 % 2147483647
        yield state


def words(seed: int, count: int) -> list[str]:
    """Lines of four pseudo-random words of four hex digits each."""
    numbers = chances(seed)
    return ["".join(f"{next(numbers) // 32768:04x}" for _ in range(4)) for _ in range(count)]


def sent(lines: list[str]) -> list[str]:
    """The 26 hex digits of each group, by the second encoder."""
    return [plain.packed([int(line[k : k + 4], 16) for k in range(0, 16, 4)]).hex() for line in lines]


def past_mending(groups: list[str]) -> list[str]:
    """Groups with three bit errors each in blocks 2 and 4, which are no burst.

    If one bad block loses sync, sync is lost as soon as it is acquired.
    """
    errors = ((8, 2), (11, 8), (13, 2), (21, 2), (24, 8), (26, 2))
    mask = sum(bit << 4 * (26 - place) for place, bit in errors)
    return [f"{int(group, 16) ^ mask:026x}" for group in groups]


def gaps(count: int, each: int = 500, start: int = 0) -> str:
    """The text of gaps of one bit, one in `each` bits from `start` on."""
    return ",".join(f"{at}-{at + 1}" for at in range(start, start + count * each, each))


def make_refuse(folder: Path) -> Path:
    """The library that refuses and counts calls of a program."""
    path, source = folder / "refuse.so", TOP / "tests" / "refuse.c"
    wrote(os.environ.get("CC", "cc"), "-O1", "-shared", "-fPIC", "-o", path, source, "-ldl")
    return path
