"""The blocks of 27 symbols, and listings of symbols, by docs/MODEL.md, with a plain search over flips."""

from __future__ import annotations

from functools import lru_cache
from itertools import combinations
from typing import Iterator, NamedTuple

import numpy as np
import plain

SYMBOLS = 27
TOP = 127
# The most symbols that the short search flips.
FEW = 6
# Seven symbols of this size weigh more than the top and the greatest margin of random windows: 7 * 23 > 127 + 32.
SEVEN_ARE_TOO_MANY = 23
# The sets of offsets to be tried for block 3, by the second byte of a window.
WANTED: tuple[tuple[int, ...], ...] = ((plain.C, plain.CX), (plain.C,), (plain.CX,))
PLACES = np.arange(SYMBOLS - 1, -1, -1)
# The bits of a word, and two offset words by which each block may be sent.
BITS = 1 << PLACES[1:]
SENT = np.array(
    [
        [plain.WORDS[one] for one in two]
        for two in ((plain.A, plain.A), (plain.B, plain.B), (plain.C, plain.CX), (plain.D, plain.D))
    ]
)
LOST = plain.Read(0, 0, 0)


class Window(NamedTuple):
    """A block's number, the offsets to be tried, a margin, and 27 symbols, as `rds_bench --soft` reads them."""

    number: int
    wanted: int
    margin: int
    symbols: np.ndarray

    def packed(self) -> bytes:
        return bytes([self.number, self.wanted, self.margin]) + self.symbols.tobytes()


# ---- flips


class Flips(NamedTuple):
    """Words of flips, and of each which symbols it flips, from the first symbol on."""

    words: np.ndarray
    symbols: np.ndarray

    @staticmethod
    def of(words: np.ndarray) -> Flips:
        return Flips(words, (words[:, None] >> PLACES & 1).astype(np.float32))


def mask_of(flips: int) -> int:
    """The bits that flips invert."""
    return (flips ^ flips >> 1) & plain.WINDOW


@lru_cache(None)
def few_flips() -> list[Flips]:
    """All flips of up to six symbols, by the remainder of their masks."""
    ones = [1 << k for k in range(SYMBOLS)]
    words = np.array([sum(some) for count in range(FEW + 1) for some in combinations(ones, count)])
    remainders = plain.remainders((words ^ words >> 1) & plain.WINDOW)
    order = np.argsort(remainders, kind="stable")
    parts = np.split(words[order], np.searchsorted(remainders[order], range(1, 1024)))
    return [Flips.of(part) for part in parts]


@lru_cache(None)
def idle_flips() -> Flips:
    """All flips whose masks have the remainder 0: the 2^17 sums of seventeen of them, found by elimination."""
    pivots: dict[int, tuple[int, int]] = {}
    idle = np.zeros(1, np.int64)
    for k in range(SYMBOLS):
        flips, rest = 1 << k, plain.remainder(mask_of(1 << k))
        while rest and rest.bit_length() in pivots:
            other = pivots[rest.bit_length()]
            flips, rest = flips ^ other[0], rest ^ other[1]
        if rest:
            pivots[rest.bit_length()] = flips, rest
        else:
            idle = np.concatenate([idle, idle ^ flips])
    return Flips.of(idle)


def weighed_few(remainder: int, confidences: np.ndarray) -> tuple[np.ndarray, np.ndarray]:
    """The flips of up to six symbols whose masks have this remainder, and their weights."""
    words, symbols = few_flips()[remainder]
    return words, symbols @ confidences


def weighed_any(remainder: int, confidences: np.ndarray) -> tuple[np.ndarray, np.ndarray]:
    """All flips whose masks have this remainder, and their weights: idle ones beside the first of the few."""
    words, symbols = idle_flips()
    base = few_flips()[remainder]
    weight = base.symbols[0] @ confidences
    return words ^ base.words[0], symbols @ (confidences * (1 - 2 * base.symbols[0])) + weight


# ---- windows


def spelled(window: Window, any_number: bool) -> str:
    """The block of a window, by flips of up to six symbols or of any number, in the form of `rds_bench --soft`."""
    block = reading(window, any_number)[0]
    return f"{plain.NAMES[block.offset] if block.offset else 'lost'} {block.word} {block.burst}"


def reading(window: Window, any_number: bool) -> tuple[plain.Read, int]:
    """The same as it is read, and how many symbols were flipped."""
    signs = window.symbols > 0
    word = int((signs[:-1] != signs[1:]) @ BITS)
    rest = plain.remainder(word)
    offset = int(plain.OFFSET_OF[rest])
    if plain.NUMBERS[offset] == window.number:
        return plain.Read(offset, 0, word >> 10), 0
    weight, offset, flips, others = nearest(window, rest, any_number)
    if weight > TOP or others < weight + window.margin:
        return LOST, 0
    mask = mask_of(flips)
    return plain.Read(offset, mask, (word ^ mask) >> 10), bin(flips).count("1")


def nearest(window: Window, rest: int, any_number: bool) -> tuple[int, int, int, int]:
    """The weight, the offset and the flips of the lightest turn, and the weight of the next one."""
    first, second = sorted(lightest(window, rest, any_number))[:2]
    return *first, second[0]


def lightest(window: Window, rest: int, any_number: bool) -> Iterator[tuple[int, int, int]]:
    """The two lightest turns to each offset: their weights, offsets and flips."""
    confidences = np.minimum(np.abs(window.symbols.astype(np.float32)), TOP)
    numbers = {1: (plain.A,), 2: (plain.B,), 3: WANTED[window.wanted], 4: (plain.D,)}
    for offset in numbers[window.number]:
        find = weighed_any if any_number else weighed_few
        words, weights = find(rest ^ plain.WORDS[offset], confidences)
        for at in np.argpartition(weights, 1)[:2]:
            yield int(weights[at]), offset, int(words[at])


# ---- listings


class Symbols(NamedTuple):
    """A recording of symbols: signed bytes, of which n + 1 give n bits, the number of its bits, and its gaps."""

    held: bytes
    bits: int
    gaps: plain.Gaps = ()

    def hard(self) -> plain.Recording:
        """The recording of the bits."""
        above = np.frombuffer(self.held, np.int8) > 0
        return plain.Recording(np.packbits(above[1:] != above[:-1]).tobytes(), self.bits, self.gaps)


class Again:
    """Groups that are read again; `flips` counts the corrected blocks by their flips, six or more together."""

    def __init__(self, symbols: Symbols, margin: int, any_number: bool) -> None:
        self.recording, self.margin, self.any_number = symbols.hard(), margin, any_number
        self.symbols = np.frombuffer(symbols.held, np.int8)
        self.flips = [0] * FEW

    def item(self, item: plain.Item) -> plain.Item:
        if item.what != "group":
            return item
        first = next(k for k, block in enumerate(item.blocks) if block)
        read: list[plain.Read] = []
        for number, block in enumerate(filter(None, item.blocks), first + 1):
            second = read[1 - first] if number == 3 and first < 2 else LOST
            wanted = 0 if not second.offset else 2 if second.word >> 11 & 1 else 1
            read.append(self.block(block, number, wanted, item.place + plain.BLOCK * len(read)))
        return plain.group_of(item.place + plain.BLOCK * len(read) - 1, first + 1, read)

    def block(self, hard: plain.Read, number: int, wanted: int, place: int) -> plain.Read:
        """The block whose first bit is here."""
        if hard.offset and not hard.burst or not self.recording.is_heard[place + plain.BLOCK - 1]:
            return hard
        window = Window(number, wanted, self.margin, self.symbols[place : place + SYMBOLS])
        block, flips = reading(window, self.any_number)
        if flips:
            self.flips[min(flips, FEW) - 1] += 1
        return block


def listing(job: str, symbols: Symbols, rules: plain.Rules, margin: int, any_number: bool) -> str:
    """What `rds` writes for list or totals with --soft."""
    again = Again(symbols, margin, any_number)
    items = [again.item(item) for item in plain.report(again.recording, rules._replace(burst=0))]
    blocks = [block for item in items for block in item.blocks if block]
    bare = [item._replace(blocks=tuple(b and b._replace(burst=0) for b in item.blocks)) for item in items]
    totals = plain.totals_of(bare)
    totals["valid"] -= sum(again.flips)
    totals["bits"] = sum(bin(block.burst).count("1") for block in blocks)
    totals.update((f"soft{count}", found) for count, found in enumerate(again.flips, 1))
    rows = plain.csv_text(item.fields() for item in items) if job == "list" else ""
    return rows + plain.text_of_totals(totals)


# ---- random ones


def random_symbols(numbers: np.random.Generator, held: bytes, least: int) -> bytes:
    """Symbols of these bits, of at least this size, of which some are wrong and nearly of the least."""
    bits = np.unpackbits(np.frombuffer(held, np.uint8))
    signs = np.cumsum([numbers.integers(2), *bits]) % 2 == 1
    sizes = numbers.integers(least, 128, len(signs))
    wrong = numbers.random(len(signs)) < numbers.choice([0, 0.01, 0.05, 0.1])
    sizes[wrong] = numbers.integers(least, least + 30, int(wrong.sum()))
    return np.where(signs ^ wrong, sizes, -sizes).astype(np.int8).tobytes()


def random_windows(numbers: np.random.Generator, least: int, count: int) -> list[Window]:
    """Symbols of at least this size: of blocks that were sent, with up to four wrong ones, or in one of three of noise."""
    shape, number = (count, SYMBOLS), numbers.integers(1, 5, count)
    infos = numbers.integers(1 << 16, size=count) << 10
    words = infos | plain.remainders(infos) ^ SENT[number - 1, numbers.integers(2, size=count)]
    bits = words[:, None] >> PLACES & 1
    bits[:, 0] = numbers.integers(2, size=count)
    is_sent = numbers.integers(3, size=(count, 1)) > 0
    signs = np.where(is_sent, np.cumsum(bits, axis=1) % 2, numbers.integers(2, size=shape)) == 1
    wrong = is_sent & (numbers.random(shape).argsort(axis=1) < numbers.integers(5, size=(count, 1)))
    sizes = numbers.integers(least, np.where(is_sent, 128, least + 60), shape)
    sizes[wrong] = numbers.integers(least, least + 30, int(wrong.sum()))
    symbols = np.where(signs ^ wrong, sizes, -sizes).astype(np.int8)
    asked = zip(
        number.tolist(), numbers.integers(3, size=count).tolist(), numbers.integers(1, 33, count).tolist()
    )
    return [Window(*of, row) for of, row in zip(asked, symbols)]
