"""The example of docs/ACCURACY.md: a signal without a bit error on which false sync lasts."""

from __future__ import annotations

import pytest
from running import wrote

BLOCK = 26
# Where sync is acquired on a block 2: ten bits after the end of a block 3, whose place is 45.
FALSE, SENT = 55, 45
GROUPS = 40_000


@pytest.fixture(scope="module")
def bits(rds: str) -> bytes:
    return wrote(rds, "encode", data=b"D393 7356 8A6C 87F9\n" * GROUPS)[4:]


def totals(rds: str, bits: bytes, *words: str) -> dict[str, int]:
    rows = wrote(rds, "totals", *words, data=bits).decode().splitlines()
    return {name: int(value) for _, name, value, *_ in (row.split(",") for row in rows)}


def test_false_sync_lasts(rds: str, bits: bytes) -> None:
    blocks = len(range(FALSE, 8 * len(bits), BLOCK))
    lost = len(range(2, blocks, 4))
    found = totals(rds, bits)
    assert wrote(rds, "list", data=bits).startswith(b"acquired,%d,2," % FALSE)
    assert (found["valid"], found["lost"]) == (blocks - lost, lost)
    assert [found[name] for name in ("groups", "complete", "acquired", "losses")] == [GROUPS, 0, 1, 0]


def test_a_share_of_bad_blocks_ends_it(rds: str, bits: bytes) -> None:
    rows = wrote(rds, "list", "--share", "16", data=bits).decode().split("\n")
    lost = next(row for row in rows if row.startswith("lost"))
    again = [row for row in rows if row.startswith("acquired")][1]
    assert int(lost.split(",")[1]) - FALSE == BLOCK * 62
    assert (int(again.split(",")[1]) - SENT) % BLOCK == 0
    assert totals(rds, bits, "--share", "16")["losses"] == 1
