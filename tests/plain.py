#!/usr/bin/python3
"""A second decoder and encoder, written from docs/MODEL.md without a look at the crates; it needs numpy.

    tests/plain.py scan|list|totals [--hex] [--bits N] [--gaps TEXT] [--burst N] [--reach N]
                   [--loss N | --share N [--of N]] < RECORDING
    tests/plain.py encode [--hex] < LINES

It writes what `rds` writes of these words, byte for byte. It knows no refusal but that of a line which is no group: words and
input have to be right. It makes the report of whole locks, and a run bit by bit.
"""

from __future__ import annotations

import argparse
import bisect
import csv
import io
import re
import sys
from functools import lru_cache
from typing import Iterable, Iterator, NamedTuple, Sequence

import numpy as np

Gaps = Sequence[tuple[int, int]]

BLOCK = 26
WINDOW = (1 << BLOCK) - 1
GENERATOR = 0x5B9

# The offsets by their codes; 0 is none. The last code is no offset, but the set of both of block 3.
A, B, C, CX, D, C_OR_CX = range(1, 7)
NAMES = ("", "A", "B", "C", "Cx", "D")
WORDS = (0, 0x0FC, 0x198, 0x168, 0x350, 0x1B4)
NUMBERS = np.array([0, 1, 2, 3, 3, 4])

TOTALS = "valid burst1 burst2 burst3 burst4 burst5 lost bits groups complete acquired losses".split()


# ---- the block code


def remainder(word: int) -> int:
    """The remainder of a 26-bit word by the generator, by long division."""
    for shift in range(BLOCK - 11, -1, -1):
        if word >> (shift + 10) & 1:
            word ^= GENERATOR << shift
    return word


def remainders_of_sums(words: Iterable[int]) -> np.ndarray:
    """The remainders of all sums of these words, by the number whose bits say which words are in the sum."""
    sums = np.zeros(1, np.int64)
    for word in words:
        sums = np.concatenate([sums, sums ^ remainder(word)])
    return sums


HALF = 13
LOWER = remainders_of_sums([1 << k for k in range(HALF)])
UPPER = remainders_of_sums([1 << k for k in range(HALF, BLOCK)])
OFFSET_OF = np.zeros(1024, np.int64)
for code in (A, B, C, CX, D):
    OFFSET_OF[WORDS[code]] = code


def remainders(windows: np.ndarray) -> np.ndarray:
    """The remainder of each window."""
    return LOWER[windows & (1 << HALF) - 1] ^ UPPER[windows >> HALF]


def block(info: int, offset: int) -> int:
    """The block of this information word with this offset, as it is sent."""
    return info << 10 | remainder(info << 10) ^ WORDS[offset]


def encode(words: Sequence[int]) -> list[int]:
    """The four blocks of these four information words."""
    third = CX if words[1] >> 11 & 1 else C
    return [block(word, offset) for word, offset in zip(words, (A, B, third, D))]


def span(burst: int) -> int:
    """The distance from a burst's lowest one to its highest, plus one."""
    return burst.bit_length() - (burst & -burst).bit_length() + 1


def bursts(limit: int) -> set[int]:
    """All words of 26 bits whose span is at most the limit."""
    shifted = (form << shift for form in range(1, 1 << limit) for shift in range(BLOCK))
    return {burst for burst in shifted if burst <= WINDOW}


@lru_cache
def corrections(limit: int) -> np.ndarray:
    """For each offset to be tried and each remainder the burst and the offset of the one pair that fits, or 0 and 0."""
    found = np.zeros((C_OR_CX + 1, 1024, 2), np.int64)
    for wanted in (A, B, C, CX, D, C_OR_CX):
        pairs: dict[int, list[tuple[int, int]]] = {}
        for offset in (C, CX) if wanted == C_OR_CX else (wanted,):
            for burst in bursts(limit):
                pairs.setdefault(remainder(burst) ^ WORDS[offset], []).append((burst, offset))
        for rest, fitting in pairs.items():
            if len(fitting) == 1:
                found[wanted, rest] = fitting[0]
    return found


# ---- recordings


class Rules(NamedTuple):
    """`bad` bad blocks of the last `of` lose sync; by the rule of a row, `bad` in a row, and `of` is 0."""

    burst: int = 2
    reach: int = 3
    bad: int = 10
    of: int = 0


class Recording:
    """The first bits of some bytes, with gaps: what is heard at each place, and its offset."""

    def __init__(self, held: bytes, bits: int | None = None, gaps: Gaps = ()) -> None:
        self.bits = 8 * len(held) if bits is None else bits
        padded = np.concatenate([np.frombuffer(held, np.uint8), np.zeros(4, np.uint8)]).astype(np.int64)
        five = sum(padded[k : len(padded) - 4 + k] << 8 * (4 - k) for k in range(5))
        by_first_bit = (five[:, None] >> (14 - np.arange(8)) & WINDOW).ravel()
        self.windows = np.zeros(self.bits, np.int64)
        self.windows[BLOCK - 1 :] = by_first_bit[: max(0, self.bits - BLOCK + 1)]
        self.is_heard = np.arange(self.bits) >= BLOCK - 1
        for start, end in gaps:
            self.is_heard[start : end + BLOCK - 1] = False
        self.remainders = remainders(self.windows)
        self.offsets = np.where(self.is_heard, OFFSET_OF[self.remainders], 0)
        self.numbers = NUMBERS[self.offsets]

    def scan(self) -> str:
        """A row for each valid window."""
        places = np.flatnonzero(self.offsets)
        offsets = self.offsets[places].tolist()
        return csv_text((place, NAMES[offset]) for place, offset in zip(places.tolist(), offsets))

    def acquiring(self, reach: int) -> list[int]:
        """The places that acquire, in order."""
        places = np.flatnonzero(self.numbers)
        acquires = np.zeros(len(places), bool)
        for k in range(1, reach + 1):
            # place 0 has no number
            partners = self.numbers[np.maximum(places - BLOCK * k, 0)]
            acquires |= (partners > 0) & ((partners + k - self.numbers[places]) % 4 == 0)
        return places[acquires].tolist()

    def lock(self, start: int, rules: Rules) -> tuple[np.ndarray, np.ndarray, bool]:
        """The places and numbers of the blocks of the lock that begins here, and whether it is lost."""
        of = rules.of or rules.bad
        for most in (64, 4096, self.bits):
            places = np.arange(start, min(self.bits, start + BLOCK * most), BLOCK)
            numbers = (self.numbers[start] - 1 + np.arange(len(places))) % 4 + 1
            bad = np.cumsum(self.numbers[places] != numbers)
            before = np.concatenate([np.zeros(of, np.int64), bad])[: len(bad)]
            losing = np.flatnonzero(bad - before >= rules.bad)
            if len(losing):
                return places[: losing[0] + 1], numbers[: losing[0] + 1], True
        return places, numbers, False

    def locks(self, rules: Rules) -> Iterator[tuple[np.ndarray, np.ndarray, bool]]:
        """All locks in order."""
        acquiring = self.acquiring(rules.reach)
        after = -1
        while (at := bisect.bisect_right(acquiring, after)) < len(acquiring):
            places, numbers, is_lost = self.lock(acquiring[at], rules)
            yield places, numbers, is_lost
            after = places[-1] if is_lost else self.bits

    def read(self, places: np.ndarray, wanted: np.ndarray, limit: int) -> tuple[np.ndarray, ...]:
        """The blocks at these places, read with these offsets: their offsets (0 if lost), bursts and words."""
        burst, offsets = corrections(limit)[wanted, self.remainders[places]].T.copy()
        is_valid = self.numbers[places] == np.where(wanted == C_OR_CX, 3, NUMBERS[wanted % C_OR_CX])
        burst[is_valid] = 0
        offsets[is_valid] = self.offsets[places[is_valid]]
        # nothing is heard: the block is lost
        burst[~self.is_heard[places]] = 0
        offsets[~self.is_heard[places]] = 0
        return offsets, burst, (self.windows[places] ^ burst) >> 10

    def read_lock(self, places: np.ndarray, numbers: np.ndarray, limit: int) -> list[Read]:
        """The blocks of a lock: block 3 is tried by bit B0 of its group's block 2, if that says it."""
        wanted = np.array([0, A, B, C_OR_CX, D])[numbers]
        offsets, burst, words = self.read(places, wanted, limit)
        thirds = np.flatnonzero((numbers == 3) & (np.arange(len(places)) > 0))
        thirds = thirds[offsets[thirds - 1] > 0]
        wanted[thirds] = np.where(words[thirds - 1] >> 11 & 1, CX, C)
        offsets[thirds], burst[thirds], words[thirds] = self.read(places[thirds], wanted[thirds], limit)
        return [*map(Read, offsets.tolist(), burst.tolist(), words.tolist())]


# ---- the report


class Read(NamedTuple):
    """A block that was read. Its offset is 0 if it is lost; a block that was not read is None."""

    offset: int
    burst: int
    word: int

    def __str__(self) -> str:
        if not self.offset:
            return "lost"
        return f"{NAMES[self.offset]}:{self.word:04X}" + (f"~{self.burst:07X}" if self.burst else "")


class Item(NamedTuple):
    """A row of a report: of a group its type, version and blocks, of an acquisition the number of its block."""

    what: str
    place: int
    number: int | str = "-"
    version: str = "-"
    blocks: tuple[Read | None, ...] = ()

    def fields(self) -> list[object]:
        """The eight fields of the row."""
        blocks = ["none" if it is None else str(it) for it in self.blocks] or ["-"] * 4
        return [self.what, self.place, self.number, self.version, *blocks]


def version_of(second: Read | None, third: Read | None) -> str:
    """The version of a group by its blocks 2 and 3, either of which may be None or lost."""
    by_bit = ("B" if second.word >> 11 & 1 else "A") if second and second.offset else None
    by_offset = ("B" if third.offset == CX else "A") if third and third.offset else None
    if third and by_offset and not third.burst:
        return by_offset + ("!" if by_bit not in (None, by_offset) else "")
    return by_bit or by_offset or "?"


def group_of(place: int, first: int, blocks: list[Read]) -> Item:
    """The group of blocks from number `first` on, of which the last ends at this place."""
    four: list[Read | None] = [*[None] * (first - 1), *blocks, *[None] * (5 - first - len(blocks))]
    group_type: int | str = four[1].word >> 12 if four[1] and four[1].offset else "-"
    begin = place - BLOCK * len(blocks) + 1
    return Item("group", begin, group_type, version_of(four[1], four[2]), tuple(four))


def totals_of(items: Iterable[Item]) -> dict[str, int]:
    """The totals of a report's items."""
    totals = dict.fromkeys(TOTALS, 0)
    for item in items:
        totals[{"group": "groups", "acquired": "acquired", "lost": "losses"}[item.what]] += 1
        totals["complete"] += bool(item.blocks) and all(it and it.offset for it in item.blocks)
        for block in filter(None, item.blocks):
            kind = f"burst{span(block.burst)}" if block.burst else "valid" if block.offset else "lost"
            totals[kind] += 1
            totals["bits"] += bin(block.burst).count("1")
    return totals


def report(recording: Recording, rules: Rules) -> Iterator[Item]:
    """The items of a recording, said of whole locks."""
    for places, numbers, is_lost in recording.locks(rules):
        yield Item("acquired", int(places[0]), int(numbers[0]))
        blocks, last = recording.read_lock(places, numbers, rules.burst), len(places) - 1
        begin = 0
        for k in np.union1d(np.flatnonzero(numbers == 4), last).tolist():
            yield group_of(int(places[k]), int(numbers[begin]), blocks[begin : k + 1])
            begin = k + 1
        if is_lost:
            yield Item("lost", int(places[-1]))


def text_of_totals(totals: dict[str, int]) -> str:
    return csv_text(("total", name, count, *"-----") for name, count in totals.items())


def listing(job: str, recording: Recording, rules: Rules) -> str:
    """What `rds` writes for scan, list or totals."""
    if job == "scan":
        return recording.scan()
    items = [*report(recording, rules)]
    rows = csv_text(item.fields() for item in items) if job == "list" else ""
    return rows + text_of_totals(totals_of(items))


# ---- runs, bit by bit


class State(NamedTuple):
    """The knowledge before a bit: number 0 is a search."""

    due: int = 0
    bad: int = 0
    number: int = 0
    first: int = 0

    def after(self, place: int, number: int, bad: int) -> State:
        """Once the block of this number was read at this place."""
        return State(place + BLOCK, bad, number % 4 + 1, 1 if number == 4 else self.first)


def is_too_bad(bad: int, rules: Rules) -> bool:
    return (bin(bad).count("1") if rules.of else bad) >= rules.bad


def is_lawful(state: State, place: int, rules: Rules) -> bool:
    """Whether a run by these rules may have this state before the bit at this place."""
    if not state.number:
        return state == State()
    is_in_group = state.first == 1 if state.number == 1 else 1 <= state.first < state.number <= 4
    is_due = max(place, 77) <= state.due < place + BLOCK
    is_heard = state.due >= BLOCK * (state.number - state.first + 1) - 1
    is_mask = not rules.of or state.bad >> rules.of == 0
    return is_in_group and is_due and is_heard and is_mask and not is_too_bad(state.bad, rules)


class Run:
    """A run over a recording: the state that it has come to."""

    def __init__(self, recording: Recording, rules: Rules, state: State = State()) -> None:
        self.recording, self.rules, self.state = recording, rules, state
        self.acquiring = recording.acquiring(rules.reach)

    def over(self, begin: int, end: int) -> Iterator[Item]:
        """The items of the bits from `begin` to before `end`."""
        while begin < end:
            if self.state.number:
                place = self.state.due
            else:
                at = bisect.bisect_left(self.acquiring, begin)
                place = self.acquiring[at] if at < len(self.acquiring) else end
            if place >= end:
                return
            yield from self.due_block(place) if self.state.number else self.acquire(place)
            begin = place + 1

    def acquire(self, place: int) -> Iterator[Item]:
        number = int(self.recording.numbers[place])
        yield Item("acquired", place, number)
        if number == 4:
            yield self.group(place, 4, 4)
        self.state = State(first=number).after(place, number, 0)

    def due_block(self, place: int) -> Iterator[Item]:
        number, first, rules = self.state.number, self.state.first, self.rules
        is_bad = int(self.recording.numbers[place]) != number
        mask, in_a_row = (self.state.bad << 1 | is_bad) & (1 << rules.of) - 1, (self.state.bad + 1) * is_bad
        bad = mask if rules.of else in_a_row
        is_lost = is_too_bad(bad, rules)
        if number == 4 or is_lost:
            yield self.group(place, first, number)
        if is_lost:
            yield Item("lost", place)
        self.state = State() if is_lost else self.state.after(place, number, bad)

    def group(self, place: int, first: int, last: int) -> Item:
        """The blocks `first` to `last` of a group, of which the last ends at this place."""
        numbers = np.arange(first, last + 1)
        blocks = self.recording.read_lock(place - BLOCK * (last - numbers), numbers, self.rules.burst)
        return group_of(place, first, blocks)

    def end(self) -> Iterator[Item]:
        """The group that the recording's end closes."""
        if self.state.number > 1:
            yield self.group(self.state.due - BLOCK, self.state.first, self.state.number - 1)


# ---- text


def csv_text(rows: Iterable[Iterable[object]]) -> str:
    """Rows as Python's csv module writes them, which knows nothing of the program's pen."""
    text = io.StringIO()
    csv.writer(text, lineterminator="\n").writerows(rows)
    return text.getvalue()


def gaps_of(text: str) -> Gaps:
    """The pairs of a text of gaps."""
    pairs = [pair.split("-") for pair in text.split(",") if pair]
    return [(int(begin), int(end)) for begin, end in pairs]


def bytes_of(digits: bytes) -> bytes:
    """The bytes that hexadecimal digits spell; blanks do not count."""
    return bytes.fromhex("".join(digits.decode().split()))


def groups_of(lines: bytes) -> list[list[int]] | None:
    """The words of the groups in these lines, or None if a line is no group."""
    rows = [re.sub(rb"[ \t\r]", b"", line) for line in lines.split(b"\n")]
    if not all(re.fullmatch(rb"(?:[0-9A-Fa-f]{16})?", row) for row in rows):
        return None
    return [[int(row[k : k + 4], 16) for k in range(0, 16, 4)] for row in rows if row]


def packed(words: Sequence[int]) -> bytes:
    """The 13 bytes of a group."""
    number = 0
    for it in encode(words):
        number = number << BLOCK | it
    return number.to_bytes(13, "big")


def encoded(lines: bytes, is_hex: bool) -> bytes | None:
    """The output of `rds encode` for these lines, or None if one is no group."""
    groups = groups_of(lines)
    if groups is None:
        return None
    return b"".join(packed(it).hex().encode() + b"\n" if is_hex else packed(it) for it in groups)


RULES = {"burst": 2, "reach": 3, "loss": 10, "share": None, "of": 64}


@lru_cache
def arguments() -> argparse.ArgumentParser:
    """The parser of the command line."""
    parser = argparse.ArgumentParser(description=__doc__.split("\n")[0])
    jobs = parser.add_subparsers(dest="job", required=True)
    for name in ("scan", "list", "totals"):
        job = jobs.add_parser(name)
        job.add_argument("--hex", action="store_true")
        job.add_argument("--bits", type=int)
        job.add_argument("--gaps", type=gaps_of, default=())
        for rule, usual in RULES.items() if name != "scan" else ():
            job.add_argument(f"--{rule}", type=int, default=usual)
    jobs.add_parser("encode").add_argument("--hex", action="store_true")
    return parser


def rules_of(words: argparse.Namespace) -> Rules:
    """The rules that words of the command line say."""
    if words.job == "scan":
        return Rules()
    return Rules(words.burst, words.reach, *((words.share, words.of) if words.share else (words.loss, 0)))


def text_of(words: argparse.Namespace, held: bytes) -> bytes | None:
    """What `rds` writes for parsed words and an input."""
    if words.job == "encode":
        return encoded(held, words.hex)
    recording = Recording(bytes_of(held) if words.hex else held, words.bits, words.gaps)
    return listing(words.job, recording, rules_of(words)).encode()


def main() -> None:
    text = text_of(arguments().parse_args(), sys.stdin.buffer.read())
    if text is None:
        sys.exit("refused 12 GroupText")
    sys.stdout.buffer.write(text)


if __name__ == "__main__":
    main()
