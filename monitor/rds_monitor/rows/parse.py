"""Lines of a listing as rows of the dtype ITEM, by numpy over the bytes of all lines at once.

Each check marks the rows that it finds bad; the first bad row of all is told, with the first reason for it."""

from typing import Any, List, Optional, Tuple

import numpy

from .items import ACQUIRED, BLOCKS, CORRECTED, GROUP, ITEM, LONGEST, LOSS, LOST, UNKNOWN_TYPE, VALID, Rows

Bools = Rows
Array = Rows

TOTAL = 4  # in place of an item: a row of a total
# Bytes before the lines, the end of a line among them, and after: a window at any field lies within them.
BEFORE, AFTER = bytes(15) + b"\n", bytes(16)
# After each field a comma, and after the last one a line feed.
SEPARATORS = numpy.array([44] * 7 + [10], "u1")


class Bad(Exception):
    """A row, counted from 0, that is none of a listing."""

    def __init__(self, row: int, reason: str):
        super().__init__(reason)
        self.row, self.reason = row, reason


def _number(text: bytes) -> Any:
    """Up to 8 bytes as they are in a word, the first one lowest."""
    return numpy.uint64(int.from_bytes(text, "little"))


# The value of two hexadecimal digits, the first one in the lower byte, or NO_HEX.
NO_HEX = 1 << 16
HEX = numpy.full(1 << 16, NO_HEX, "u4")
HEX[[int(_number(b"%02X" % value)) for value in range(256)]] = range(256)
# First and last read block for each pattern of read blocks, block 1 highest, and whether they are one run.
FIRST, LAST, IS_RUN = numpy.zeros(16, "i8"), numpy.zeros(16, "i8"), numpy.zeros(16, bool)
for _first, _last in ((first, last) for first in range(4) for last in range(first, 4)):
    _pattern = (16 >> _first) - (8 >> _last)
    FIRST[_pattern], LAST[_pattern], IS_RUN[_pattern] = _first, _last, True
# The fields of type and version with their commas, and which bytes of a word are theirs: by `set_types`.
TYPE_TEXTS = [
    f"{number if number < 16 else '-'},{'?AB?'[version]}{'!' * conflict},".encode()
    for number in range(17)
    for version in range(4)
    for conflict in range(2)
]
TYPE_WORDS = numpy.array([_number(text) for text in TYPE_TEXTS])
TYPE_MASKS = numpy.array([_number(b"\xff" * len(text)) for text in TYPE_TEXTS])


def read_pattern(rows: Rows) -> Array:
    """Which blocks of each row were read, as four bits, block 1 highest."""
    pattern: Array = (rows["kind1"] > 0) * numpy.uint8(8)
    for block, bit in ((2, 4), (3, 2), (4, 1)):
        pattern |= (rows[f"kind{block}"] > 0) * numpy.uint8(bit)
    return pattern


class _Lines:
    """The bytes of lines, where their fields begin and end, and the faults of rows."""

    def __init__(self, lines: bytes):
        self.data = numpy.frombuffer(BEFORE + lines + AFTER, "u1")
        self.faults: List[Tuple[Bools, str]] = []
        at = numpy.flatnonzero((self.data == 44) | (self.data == 10))
        self.count, self.fields = len(at) // 8, 8
        signs = self.data[at[1:]]
        if len(signs) % 8 or not (signs.reshape(-1, 8) == SEPARATORS).all():
            self._cut(numpy.flatnonzero(signs == 10))
        self.ends = at[1 : 8 * self.count + 1].reshape(-1, 8)
        self.starts = at[: 8 * self.count].reshape(-1, 8) + 1

    def _cut(self, feeds: Array) -> None:
        """Keeps the lines before the first one that has no eight fields, by which separators are line feeds."""
        fields = numpy.diff(feeds, prepend=-1)
        self.count = int((fields != 8).argmax())
        self.fields = int(fields[self.count])

    def windows(self, at: Array, size: int) -> Array:
        """The bytes at these places, a row of `size` bytes for each."""
        every: Array = numpy.ndarray((len(self.data) - size + 1,), f"V{size}", self.data, strides=(1,))
        return every[at].view("u1").reshape(-1, size)

    def words(self, at: Array) -> Array:
        """The 8 bytes at these places, the first one lowest."""
        return self.windows(at, 8).view("<u8").reshape(at.shape)

    def has(self, at: Array, text: bytes) -> Bools:
        same: Bools = (self.windows(at, len(text)) == numpy.frombuffer(text, "u1")).all(axis=1)
        return same

    def check(self, fine: Bools, reason: str, rows: Optional[Array] = None) -> None:
        """Notes the rows that are not fine; `rows` says which rows these are, by default all."""
        if not fine.all():
            bad = numpy.zeros(self.count, bool)
            bad[~fine if rows is None else rows[~fine]] = True
            self.faults.append((bad, reason))


def parse(lines: bytes) -> Tuple[Rows, Optional[Bad]]:
    """The rows of whole lines, each ended by a line feed, up to the first bad one, and that one. Of a total a row has only its kind."""
    text = _Lines(lines)
    rows = numpy.zeros(text.count, ITEM)
    if text.count:
        _parse_kinds(text, rows)
        _parse_places(text, rows)
        _parse_groups(text, rows)
        _parse_others(text, rows)
    bad = None if text.fields == 8 else Bad(text.count, f"it has {text.fields} fields in place of 8")
    if text.faults:
        row = min(int(bad_rows.argmax()) for bad_rows, _ in text.faults)
        bad = Bad(row, next(reason for bad_rows, reason in text.faults if bad_rows[row]))
    return (rows[: bad.row] if bad else rows), bad


def _parse_kinds(lines: _Lines, rows: Rows) -> None:
    words, lengths = lines.words(lines.starts[:, 0]), lines.ends[:, 0] - lines.starts[:, 0]
    for text, what in ((b"group", GROUP), (b"acquired", ACQUIRED), (b"lost", LOSS), (b"total", TOTAL)):
        is_own = (words & _number(b"\xff" * len(text)) == _number(text)) & (lengths == len(text))
        rows["what"] += is_own * numpy.uint8(what)
    lines.check(rows["what"] > 0, "it begins with none of group, acquired, lost and total")


POWERS = 10.0 ** numpy.arange(10, -1, -1)


def _parse_places(lines: _Lines, rows: Rows) -> None:
    """Places are decimal numbers of at most 11 digits, without zeros in front. Those of one length are read together."""
    starts, lengths = lines.starts[:, 1], lines.ends[:, 1] - lines.starts[:, 1]
    places, fine = numpy.zeros(lines.count), numpy.zeros(lines.count, bool)
    for size in range(max(1, int(lengths.min())), min(11, int(lengths.max())) + 1):
        at = numpy.flatnonzero(lengths == size)
        digits = lines.windows(starts[at], size) - numpy.uint8(ord("0"))
        places[at] = digits.astype("f8") @ POWERS[-size:]
        decimal = digits <= 9
        fine[at] = (decimal.all() or decimal.all(axis=1)) & ((digits[:, 0] > 0) | (size == 1))
    fine &= places < LONGEST
    lines.check(fine | (rows["what"] == TOTAL), "its second field is no place")
    rows["place"] = places * fine


def _parse_groups(lines: _Lines, rows: Rows) -> None:
    """The blocks of groups, and their types, versions and conflicts by these. Other rows have none."""
    others = rows["what"] != GROUP
    for block, fine in zip(BLOCKS, _parse_blocks(lines, rows)):
        lines.check(fine | others, f"its block {block} is no block")
    lines.check(IS_RUN[read_pattern(rows)] | others, "its blocks are not in a row")
    index = set_types(rows)
    is_own = lines.words(lines.starts[:, 2]) & TYPE_MASKS[index] == TYPE_WORDS[index]
    lines.check(is_own | others, "its type and version are not those of its blocks")
    for name in ("number", "version", "conflict"):
        rows[name][others] = 0


NONE, LOST_TEXT = _number(b"none"), _number(b"lost")
NAMES = numpy.array([[_number(text)] for text in (b"A:", b"B:", b"C:", b"D:")], "u2")
NAME_OF_PRIME = numpy.uint16(_number(b"x:"))


def _parse_blocks(lines: _Lines, rows: Rows) -> Bools:
    """Sets the blocks of rows: none, lost, B:2540 or C:0000~0008000. Which of them are blocks, a row per number. Most rows have neither
    masks nor lost blocks."""
    starts, lengths = lines.starts[:, 4:].T.copy(), (lines.ends - lines.starts)[:, 4:].T.copy()
    # Of C' the name has a letter more, and is read from that on.
    prime = (lines.data[starts[2]] == ord("C")) & (lines.data[starts[2] + 1] == ord("x"))
    starts[2] += prime
    lengths[2] -= prime
    words = lines.words(starts)
    pairs = words.view("<u2").reshape(4, -1, 4)
    infos = HEX[pairs[..., 1]] << 8 | HEX[pairs[..., 2]]
    known = pairs[..., 0] == NAMES
    known[2] = pairs[2, :, 0] == numpy.where(prime, NAME_OF_PRIME, NAMES[2])
    known &= infos < NO_HEX
    has_mask, is_short = known & (lengths == 14), lengths == 4
    known &= has_mask | (lengths == 6)
    corrected: Any = 0
    if has_mask.any():
        masks = numpy.zeros(starts.shape, "i4")
        masks[has_mask] = _masks(lines.words(starts[has_mask] + 6))
        known &= masks >= 0
        corrected = masks > 0
        _set(rows, "burst", masks * known)
    fine: Bools = known
    kinds = known * numpy.uint8(VALID) + corrected * numpy.uint8(CORRECTED - VALID)
    if is_short.any():
        low = words & numpy.uint64(0xFFFFFFFF)
        lost = is_short & (low == LOST_TEXT)
        kinds, fine = kinds + lost * numpy.uint8(LOST), known | lost | is_short & (low == NONE)
    offsets = known * numpy.array([[1], [2], [3], [5]], "u1")
    offsets[2] += known[2] & prime
    for name, columns in (("kind", kinds), ("offset", offsets), ("info", infos * known)):
        _set(rows, name, columns)
    return fine


def _set(rows: Rows, name: str, columns: Array) -> None:
    for block, column in zip(BLOCKS, columns):
        rows[f"{name}{block}"] = column


def _masks(words: Array) -> Array:
    """The error masks of texts such as ~0008000, or -1 for one that is none."""
    tilde, zero = _number(b"~"), _number(b"0")
    pairs = HEX[(words - tilde + zero).view("<u2").reshape(-1, 4)].astype("i8")
    masks = pairs[:, 0] << 24 | pairs[:, 1] << 16 | pairs[:, 2] << 8 | pairs[:, 3]
    fine = (words & numpy.uint64(0xFF) == tilde) & (pairs.max(axis=1, initial=0) < NO_HEX)
    fine &= (masks < 2**26) & (masks > 0)
    return numpy.where(fine, masks, -1)


def set_types(groups: Rows) -> Array:
    """Sets type, version and conflict of groups by their blocks, and gives the index of their text."""
    known2, valid3 = groups["kind2"] >= VALID, groups["kind3"] == VALID
    version2 = (groups["info2"] >> 11 & 1).astype("u1") + 1
    version3 = groups["offset3"] - numpy.uint8(2)
    by_block_3 = valid3 | ~known2 & (groups["kind3"] == CORRECTED)
    version = numpy.where(by_block_3, version3, numpy.where(known2, version2, 3)).astype("u1")
    conflict = valid3 & known2 & (version2 != version3)
    number = numpy.where(known2, groups["info2"] >> 12, UNKNOWN_TYPE).astype("u1")
    groups["number"], groups["version"], groups["conflict"] = number, version, conflict
    index: Array = numpy.minimum(number, 16).astype("i8") * 8 + version * 2 + conflict
    return index


def _parse_others(lines: _Lines, rows: Rows) -> None:
    """The hyphens of acquisitions and losses, and the number of the block that acquired."""
    losses = numpy.flatnonzero(rows["what"] == LOSS)
    lines.check(lines.has(lines.ends[losses, 1], b",-,-,-,-,-,-\n"), "it is no row of a loss", losses)
    gains = numpy.flatnonzero(rows["what"] == ACQUIRED)
    number = lines.data[lines.starts[gains, 2]] - numpy.uint8(48)
    fine = (number >= 1) & (number <= 4) & (rows["place"][gains] >= 25)
    fine &= lines.has(lines.starts[gains, 2] + 1, b",-,-,-,-,-\n")
    lines.check(fine, "it is no row of an acquisition", gains)
    rows["number"][gains] = number
