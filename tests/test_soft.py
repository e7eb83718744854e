"""Blocks of symbols, as `rds_bench --soft` corrects them, against a plain search over flips (plain_soft.py)."""

from __future__ import annotations

import numpy as np
import pytest
from plain_soft import SEVEN_ARE_TOO_MANY, Window, random_windows, spelled
from running import said


def blocks(bench: str, windows: list[Window]) -> list[str]:
    return said(bench, "--soft", data=b"".join(window.packed() for window in windows)).splitlines()


@pytest.mark.parametrize("seed", range(10))
def test_flips_of_up_to_six(rds_bench: str, seed: int) -> None:
    """10,000 windows, in which no more than six symbols are flipped."""
    numbers = np.random.default_rng(seed)
    windows = random_windows(numbers, SEVEN_ARE_TOO_MANY, 10_000)
    found = blocks(rds_bench, windows)
    assert found == [spelled(window, False) for window in windows]
    assert {block[:1] for block in found if block[-2:] != " 0"} == {*"ABCD"} and "lost 0 0" in found


@pytest.mark.parametrize("least", [0, 1, 12])
def test_any_flips(rds_bench: str, least: int) -> None:
    """Windows with symbols of any size, erasures too, against each of the 2^27 flips."""
    numbers = np.random.default_rng(least)
    windows = random_windows(numbers, least, 150)
    assert blocks(rds_bench, windows) == [spelled(window, True) for window in windows]


def test_bytes_of_any_size(rds_bench: str) -> None:
    """Random bytes, -128 among them, and an extreme: all symbols of -128, whose bits are 0."""
    numbers = np.random.default_rng(9)
    rows = numbers.integers(-128, 128, (150, 27)).astype(np.int8)
    rows[0] = -128
    windows = [Window(1 + i % 4, i % 3, 1 + i % 127, row) for i, row in enumerate(rows)]
    assert blocks(rds_bench, windows) == [spelled(window, True) for window in windows]


def test_tie_and_margin(rds_bench: str) -> None:
    """Block 4 of the word 0, one wrong symbol of size 8: flips at places 20 and 1 from the last would do as well."""
    signs = np.array([1] * 15 + [0] + [1, 1, 0, 1, 1, 0, 1, 1, 0, 0, 0]) == 1
    sizes = np.full(27, 127)
    sizes[[6, 15, 25]] = 31, 8, 8
    symbols = np.where(signs, sizes, -sizes).astype(np.int8)
    assert blocks(rds_bench, [Window(4, 0, 31, symbols), Window(4, 0, 32, symbols)]) == [
        f"D 0 {0xC00}",
        "lost 0 0",
    ]
