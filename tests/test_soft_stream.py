"""Streams of symbols, against the report of their bits, whose groups a plain search reads again (plain_soft.py)."""

from __future__ import annotations

import ctypes
import importlib
import os
import sys
from contextlib import suppress
from pathlib import Path
from subprocess import PIPE, Popen
from types import ModuleType
from typing import Any, Callable, Iterator, NamedTuple

import numpy as np
import plain
import pytest
from plain_soft import Window, reading
from running import LIMIT, TOP, said, wrote

# Symbols of at least this size: seven of them weigh more than the top and the greatest margin here.
LEAST = 23
OUT_OF_MEMORY, UNLAWFUL_STATE = 8, 65
CC = os.environ.get("CC", "cc")


@pytest.fixture(scope="module")
def module(librds: str) -> ModuleType:
    """librds of Python."""
    os.environ["RDS_LIBRARY"] = f"{librds}/librds.so.0"
    sys.path.insert(0, f"{TOP}/bindings/python")
    return importlib.import_module("librds")


# ---- streams and their items


class Stream(NamedTuple):
    symbols: np.ndarray
    gaps: list[tuple[int, int]]
    rules: plain.Rules
    margin: int


def random_stream(numbers: np.random.Generator) -> Stream:
    """Groups that were sent, with wrong symbols among them, noise and slips: a whole number of bytes of bits."""
    bits: list[int] = []
    for _ in range(int(numbers.integers(1, 6))):
        bits += numbers.integers(0, 2, int(numbers.integers(0, 150))).tolist()
        for _ in range(int(numbers.integers(2, 12))):
            blocks = plain.encode(numbers.integers(0, 1 << 16, 4).tolist())
            bits += [block >> 25 - place & 1 for block in blocks for place in range(plain.BLOCK)]
    bits = bits[: len(bits) // 8 * 8]
    signs = np.cumsum([int(numbers.integers(2)), *bits]) % 2 == 1
    sizes = numbers.integers(60, 128, len(signs))
    wrong = numbers.random(len(signs)) < numbers.choice([0.0, 0.02, 0.05])
    signs ^= wrong
    sizes[wrong] = numbers.integers(LEAST, 60, int(wrong.sum()))
    places = np.sort(numbers.choice(len(bits), 2 * int(numbers.integers(3)), replace=False)).tolist()
    loss = (int(numbers.integers(1, 8)), 0)
    rules = plain.Rules(0, int(numbers.integers(1, 9)), *loss)
    symbols = np.where(signs, sizes, -sizes).astype(np.int8)
    return Stream(symbols, [*zip(places[::2], places[1::2])], rules, int(numbers.integers(1, 33)))


def read_again(
    block: plain.Read | None, first: int, number: int, wanted: int, stream: Stream
) -> plain.Read | None:
    """A block whose first bit is at this place: a lost one is read from its symbols, if it touches no gap."""
    if block is None or block.offset:
        return block
    if any(begin < first + plain.BLOCK and first < end for begin, end in stream.gaps):
        return block
    again = reading(Window(number, wanted, stream.margin, stream.symbols[first : first + 27]), False)[0]
    return again if again.offset else block


def group_again(group: plain.Item, stream: Stream) -> plain.Item:
    blocks: list[plain.Read | None] = []
    at, wanted = group.place, 0
    for number, block in enumerate(group.blocks, 1):
        blocks.append(read_again(block, at, number, wanted if number == 3 else 0, stream))
        at += plain.BLOCK * (block is not None)
        if number == 2 and (second := blocks[1]) and second.offset:
            wanted = 2 if second.word >> 11 & 1 else 1
    first = next(number for number, block in enumerate(blocks, 1) if block)
    return plain.group_of(at - 1, first, [block for block in blocks if block])


def wanted_rows(stream: Stream) -> list[list[object]]:
    """The rows of the report, read again."""
    signs = stream.symbols > 0
    bits = np.packbits(signs[:-1] != signs[1:]).tobytes()
    items = plain.report(plain.Recording(bits, len(stream.symbols) - 1, stream.gaps), stream.rules)
    return [(group_again(item, stream) if item.what == "group" else item).fields() for item in items]


def block_text(block: Any) -> str:
    if block.info is None:
        return ("none", "lost")[block.kind]
    return f"{block.offset}:{block.info:04X}" + (f"~{block.burst:07X}" if block.burst else "")


def row_of(item: Any) -> list[object]:
    """An item of the library as a row of a listing."""
    what = {"Acquired": "acquired", "Loss": "lost"}.get(type(item).__name__, "group")
    if what != "group":
        return [what, item.place, getattr(item, "number", "-"), "-", *["-"] * 4]
    group_type = "-" if item.group_type is None else item.group_type
    version = (item.version or "?") + "!" * item.conflict
    return [what, item.place, group_type, version, *map(block_text, item.blocks)]


# ---- tests


def rules_of(module: ModuleType, stream: Stream) -> Any:
    return module.Rules(int(stream.rules.burst), stream.rules.reach, stream.rules.bad, stream.rules.of)


def followed(module: ModuleType, stream: Stream, numbers: np.random.Generator) -> tuple[list[Any], Any]:
    """The items of a stream that is cut at random, and its follower."""
    follower = module.SoftFollower(rules_of(module, stream), stream.gaps, stream.margin)
    items: list[Any] = []
    rest = stream.symbols
    while len(rest):
        count = int(numbers.choice([1, 8, 9, 100, 5000]))
        items += follower.push(rest[:count])
        rest = rest[count:]
    return items, follower


@pytest.mark.parametrize("seed", range(40))
def test_streams(module: ModuleType, seed: int, cases: Callable[[int], None]) -> None:
    """All items but the group in progress, which the stream of bits gives, are those of the whole, read again."""
    numbers = np.random.default_rng(seed)
    stream = random_stream(numbers)
    items, follower = followed(module, stream, numbers)
    bits = module.Follower(rules_of(module, stream), stream.gaps, follower.stream)
    rows = wanted_rows(stream)
    assert bits.place == len(stream.symbols) - 1
    assert [*map(row_of, items)] == rows[: len(rows) - (bits.finish()[0] is not None)]
    cases(len(items))


def test_what_is_corrected(module: ModuleType) -> None:
    """Of 40 streams some blocks are corrected by masks that are no burst of five bits, and most lost ones are."""
    found: list[str] = []
    for seed in range(40):
        stream = random_stream(np.random.default_rng(seed))
        found += [str(text) for row in wanted_rows(stream) if row[0] == "group" for text in row[4:]]
    masks = [int(text.partition("~")[2], 16) for text in found if "~" in text]
    assert sum(plain.span(mask) > 5 for mask in masks) > 50 and len(masks) > found.count("lost")


class Pushed(NamedTuple):
    number: int
    taken: int
    items: bytes
    soft: bytes


def pushes(module: ModuleType, stream: Stream, room_len: int, scratch: int | None) -> Iterator[Pushed]:
    """Each push of the whole stream in C, with malloc or from a scratch of this size."""
    ffi = module._ffi
    library = module._library
    room, soft = (ffi.RdsItem * room_len)(), ffi.RdsSoft()
    taken, count, at = ctypes.c_uint64(), ctypes.c_uint64(), 0
    lent = () if scratch is None else ((ctypes.c_uint8 * max(1, scratch))(), ctypes.c_size_t(scratch))
    call = library.rds_push_soft if scratch is None else library.rds_push_soft_with
    kinds = ffi.FUNCTIONS["rds_push_soft"][1]
    call.restype, call.argtypes = (
        ctypes.c_uint8,
        [*kinds, ctypes.c_void_p, ctypes.c_size_t][: len(kinds) + len(lent)],
    )
    terms = module._terms(stream.gaps, rules_of(module, stream))
    while len(stream.symbols) - at > 8:
        data = stream.symbols[at:].tobytes()
        symbols = (ctypes.c_int8 * len(data)).from_buffer_copy(data)
        number = call(symbols, len(data), *terms, stream.margin, soft, room, room_len, taken, count, *lent)
        yield Pushed(number, taken.value, ctypes.string_at(room, 48 * count.value), bytes(soft))
        if number:
            return
        at += taken.value


@pytest.mark.parametrize("room", [16, 40, 480, 16000])
def test_scratch(module: ModuleType, room: int) -> None:
    """Without malloc the same comes, from as much scratch as the header says; with far too little it is out of memory."""
    stream = random_stream(np.random.default_rng(room))
    enough = 40960 + 58 * min(max(room, 16), 15360) + 64 * len(stream.gaps)
    usual = [*pushes(module, stream, room, None)]
    assert [*pushes(module, stream, room, enough)] == usual and {one.number for one in usual} == {0}
    assert [one.number for one in pushes(module, stream, room, 30000)] == [OUT_OF_MEMORY]
    assert [one.taken for one in usual][:1] == [8 * min(room // 16, 960, (len(stream.symbols) - 1) // 8)]


@pytest.mark.parametrize("room", [16, 15360])
def test_stack_and_refused_memory(module: ModuleType, librds: str, tmp_path: Path, room: int) -> None:
    """A call takes no more stack than the header says, and each allocation can be refused: nothing has changed then."""
    program = tmp_path / "soft"
    wrote(
        CC,
        "-O1",
        "-Wall",
        "-Werror",
        f"-I{librds}",
        "-o",
        program,
        TOP / "tests/library/soft.c",
        f"{librds}/librds.a",
    )
    stream = random_stream(np.random.default_rng(room))._replace(gaps=[], rules=plain.Rules(2), margin=32)
    rows = said(str(program), str(room), "32", data=stream.symbols.tobytes()).splitlines()
    found = [[*map(int, row.split())] for row in rows]
    wanted = [*pushes(module, stream, room, None)]
    assert [row[:2] for row in found] == [[one.taken, len(one.items) // 48] for one in wanted]
    assert max(row[2] for row in found) <= 8192 and min(row[3] for row in found) > 8


def test_errors(module: ModuleType) -> None:
    for margin in (0, 128, -1, 300):
        with pytest.raises(module.Refused, match="refused 75 MarginRange: the margin is not 1 to 127"):
            module.SoftFollower(margin=margin)
    with pytest.raises(module.Refused, match="refused 1 "):
        module.SoftFollower(module.Rules(burst=6))
    follower = module.SoftFollower()
    follower._soft.stream.reserved = 1
    with pytest.raises(module.Refused, match=f"refused {UNLAWFUL_STATE} "):
        follower.push(bytes(100))
    assert bytes(follower._soft)[-240:] == bytes(240)


# ---- the program


def options_of(stream: Stream) -> list[str]:
    """The options of `rds` for a stream."""
    gaps = ",".join(f"{begin}-{end}" for begin, end in stream.gaps)
    rules = ["--reach", str(stream.rules.reach), "--loss", str(stream.rules.bad)]
    return ["--soft", "--margin", str(stream.margin), *rules, *(["--gaps", gaps] if gaps else [])]


def in_parts(symbols: bytes, numbers: np.random.Generator) -> Iterator[bytes]:
    while symbols:
        count = int(numbers.choice([1, 2, 27, 100, 5000]))
        yield symbols[:count]
        symbols = symbols[count:]


def fed(rds: str, options: list[str], parts: Iterator[bytes]) -> bytes:
    """The output of `rds follow`, whose input comes part by part through a pipe."""
    with Popen([rds, "follow", *options], stdin=PIPE, stdout=PIPE) as running:
        assert running.stdin
        # with --bits it may end before its input does
        with suppress(BrokenPipeError):
            for part in parts:
                running.stdin.write(part)
                running.stdin.flush()
        return running.communicate(timeout=LIMIT)[0]


@pytest.mark.parametrize("seed", range(30))
def test_program(rds: str, seed: int, cases: Callable[[int], None]) -> None:
    """`rds follow --soft` of symbols that are cut anyhow writes what `rds list --soft` writes: the report, read again."""
    numbers = np.random.default_rng(seed)
    whole = random_stream(numbers)
    count = len(whole.symbols) - int(numbers.integers(8))
    gaps = [gap for gap in whole.gaps if gap[1] < count]
    stream = whole._replace(symbols=whole.symbols[:count], gaps=gaps)
    symbols, options = stream.symbols.tobytes(), options_of(stream)
    listed = wrote(rds, "list", *options, data=symbols)
    assert fed(rds, options, in_parts(symbols, numbers)) == listed
    limited = [*options, f"--bits={count - 1}"]
    assert fed(rds, limited, in_parts(whole.symbols.tobytes(), numbers)) == listed
    rows = [row.split(",") for row in listed.decode().splitlines()]
    wanted = wanted_rows(stream)
    assert [row for row in rows if row[0] != "total"] == [[*map(str, row)] for row in wanted]
    cases(len(wanted))


def test_rows_at_once(rds: str) -> None:
    """A row is written once the symbol that completes its group was read, in the middle of a byte of bits too."""
    words = np.random.default_rng(1).integers(0, 1 << 16, (9, 4)).tolist()
    blocks = [block for group in words for block in plain.encode(group)]
    bits = [block >> 25 - place & 1 for block in blocks for place in range(plain.BLOCK)]
    signs = np.cumsum([0, *bits]) % 2 == 1
    symbols = np.where(signs, 100, -100).astype(np.int8).tobytes()
    with Popen([rds, "follow", "--soft"], stdin=PIPE, stdout=PIPE) as running:
        assert running.stdin and running.stdout
        running.stdin.write(symbols[:53])
        running.stdin.flush()
        assert running.stdout.readline() == b"acquired,51,2,-,-,-,-,-\n"
        for number in range(9):
            running.stdin.write(symbols[max(53, 104 * number + 1) : 104 * number + 105])
            running.stdin.flush()
            assert running.stdout.readline().startswith(b"group,%d," % (104 * number or 26))
        running.communicate(timeout=LIMIT)
