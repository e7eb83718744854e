"""The command why: where the fault is that rds refuses."""

from __future__ import annotations

import os
from typing import List, Tuple

import numpy
import pytest
from conftest import PROGRAM, STATION, encode, monitor, rds
from rds_monitor.why import first_bits


PAST = "goes past the end of the recording, "


def why(data: bytes, *words: str) -> Tuple[int, str]:
    done = monitor("why", *words, data=data, env={**os.environ, "RDS": PROGRAM})
    return done.returncode, done.stdout.decode()


# The input, the words, and the number and name of the error with the lines that tell where it is.
CASES = [
    (b"\x1b[2J", "encode", "12 GroupText", ["line 1: \\x1b[2J"]),
    (
        b"12\n\n3g",
        "scan --hex",
        "11 HexText",
        ["byte 6 (line 3, column 2) is 0x67, neither a digit nor blank"],
    ),
    (b"\n3g", "scan --hex", "11 HexText", ["byte 3 (line 2, column 2) is 0x67, neither a digit nor blank"]),
    (b"1 2\n3", "list --hex", "11 HexText", ["there are 3 digits, an odd number"]),
    (b"0000", "totals --gaps 1-2,9-9", "16 BadGaps", ["gap 2, 9-9, is empty"]),
    (b"0000", "totals --gaps 0-5,5-32,99-99", "16 BadGaps", ["gap 3, 99-99, is empty"]),
    (
        b"0000",
        "list --gaps=1-5,4-9",
        "16 BadGaps",
        ["gap 2, 4-9, begins before 5, the end of the one before it"],
    ),
    (b"0000", "list --hex --gaps 1-17", "16 BadGaps", ["gap 1, 1-17, " + PAST + "16 bits"]),
    (b"0000", "list --bits 7 --gaps 1-5,4-8", "16 BadGaps", ["gap 2, 4-8, " + PAST + "7 bits"]),
    (b"0000", "list --bits 33", "4 BitsPastBytes", ["the input holds 32 bits"]),
    (bytes(60), "list --soft --bits 60", "4 BitsPastBytes", ["the input holds 59 bits"]),
    (b"", "list --soft --bits 1", "4 BitsPastBytes", ["the input holds 0 bits"]),
    (bytes(60), "list --soft --gaps 59-60", "16 BadGaps", ["gap 1, 59-60, " + PAST + "59 bits"]),
    (b"0000", "list --burst 6", "1 BurstRange", []),
    (
        b"1234 2540 5244 5320\r\n \r\n1234 2540 5244 532\r\n1234\t254052445320\nnone",
        *("encode", "12 GroupText", ["line 3: 1234 2540 5244 532", "line 5: none"]),
    ),
]


@pytest.mark.parametrize("data, words, error, told", CASES)
def test_tells_where(data: bytes, words: str, error: str, told: List[str]) -> None:
    assert why(data, *words.split()) == (1, "\n".join([f"refused {error}", *told, ""]))


@pytest.mark.parametrize("words", ["--hex --hex", "--hex --soft"])
def test_a_usage_error_is_that_of_rds(words: str) -> None:
    """The input is no text, nor symbols that are looked at."""
    status, said = why(b"\x80\xff", "list", *words.split())
    assert status == 2 and said.startswith("error: ") and "cannot be used" in said


def test_rds_that_refuses_before_it_has_read_all() -> None:
    assert why(bytes(1 << 20), "list", "--burst", "6") == (1, "refused 1 BurstRange\n")


def with_blocks_e(count: int) -> bytes:
    """Forty groups, and after each this number of blocks E: those of offset A, without its offset word 0xFC."""
    random, bits = numpy.random.default_rng(1), ""
    for number in range(40):
        bits += "".join(f"{byte:08b}" for byte in encode([(0xD393, 0x0548 | number % 4, 0xE0CD, 0x4142)]))
        for info in random.integers(1, 1 << 16, count).tolist():
            packed = int.from_bytes(encode([(info, 0, 0, 0)]), "big")
            bits += f"{packed >> 78 ^ 0xFC:026b}"
    return int(bits.ljust(-(-len(bits) // 8) * 8, "0"), 2).to_bytes(-(-len(bits) // 8), "big")


def symbols_of(data: bytes) -> bytes:
    """Symbols of both signs, two of which differ in sign by a bit 1. A zero counts as negative."""
    signs = numpy.cumsum([0, *numpy.unpackbits(numpy.frombuffer(data, "u1"))]) % 2
    return bytes(numpy.where(signs == 1, 7, numpy.arange(len(signs)) % 3 - 2).astype("i1").tobytes())


@pytest.mark.parametrize("count, groups", [(4, 39), (8, 39), (12, 0)])
def test_blocks_with_offset_word_e(count: int, groups: int) -> None:
    """Ten in a row lose sync, so no group is whole; by the option that is told, all but the first are."""
    data = with_blocks_e(count)
    status, told = why(data, "list")
    assert status == 0 and told.startswith(
        f"{40 * count} of the blocks in the first {8 * len(data)} bits have offset word E"
    )
    assert why(data.hex().encode(), "list", "--hex") == (status, told)
    assert why(symbols_of(data), "list", "--soft") == (status, told)
    for words, whole in (([], groups), (["--loss", "64"], 39)):
        assert f"total,complete,{whole}," in rds("list", *words, data=data).decode()
    assert "--loss 64" in told


def test_four_blocks_with_offset_word_e_are_told_and_no_less() -> None:
    four = with_blocks_e(4)[13:26]
    assert why(four, "list")[1].startswith("4 of the blocks in the first 104 bits have offset word E")
    assert why(four, "list", "--bits", "103") == why(b"0000", "list") == (0, "")


@pytest.mark.parametrize(
    "data",
    [bytes(9000), b"\xff" * 9000, numpy.random.default_rng(2).bytes(1 << 18), STATION.read_bytes()],
    ids=["zeros", "ones", "noise", "station"],
)
def test_no_blocks_with_offset_word_e(data: bytes) -> None:
    """Zeros are none, though their remainder is that of E."""
    assert why(data, "list") == (0, "")


def test_long_hexadecimal_text_is_cut_between_two_digits() -> None:
    text = b"1\n" + b"0" * ((1 << 20) + 1)
    assert why(text, "list", "--hex") == (0, "")


def test_the_first_four_million_bits_are_looked_at() -> None:
    """2^22 bits are 2^19 bytes, or 2^20 hexadecimal digits; of these there are half as many if each is followed by a blank."""
    assert len(first_bits(["list"], bytes((1 << 19) + 9))) == 1 << 22
    assert len(first_bits(["list", "--hex"], b"0" * ((1 << 20) + 9))) == 1 << 22
    assert len(first_bits(["list", "--hex"], b"0 " * (1 << 20))) == 1 << 21
    assert len(first_bits(["list", "--soft"], bytes((1 << 22) + 9))) == 1 << 22


def test_no_program() -> None:
    done = monitor("why", "list", env={**os.environ, "RDS": "/nowhere/rds"})
    assert done.returncode == 1
    assert done.stderr == b"rds-monitor why: /nowhere/rds: No such file or directory\n"
