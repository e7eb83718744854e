"""Decoded rows, and what all sources of them share.

Commands work on numpy arrays of the dtype `ITEM`, a row per acquisition, group or loss, in the order of a listing. A
`Source` gives them in chunks, so memory does not grow with the length of the input."""

from typing import Any, Iterator, NamedTuple, Optional, Protocol, Sequence, Tuple

import numpy
from numpy.typing import NDArray

Rows = NDArray[Any]

ACQUIRED, GROUP, LOSS = 1, 2, 3
MISSING, LOST, VALID, CORRECTED = 0, 1, 2, 3
VERSION_A, VERSION_B, VERSION_UNKNOWN = 1, 2, 3
UNKNOWN_TYPE = 255
BLOCK_BITS, GROUP_BITS = 26, 104
LONGEST = 2**36
MARGIN = 32  # of soft decisions, by default

BLOCKS = (1, 2, 3, 4)
_BLOCK = (("burst", "<u4"), ("info", "<u2"), ("kind", "u1"), ("offset", "u1"))
# The memory layout of rds_item_t, as librds.ITEM: a listing needs no library.
ITEM = numpy.dtype(
    [
        ("place", "<u8"),
        *((f"{name}{block}", form) for block in BLOCKS for name, form in _BLOCK),
        *((name, "u1") for name in ("what", "number", "version", "conflict")),
    ],
    align=True,
)

_BYTES = f"V{ITEM.itemsize}"  # numpy copies rows of many fields slowly, and those of bytes quickly


def chosen(rows: Rows, which: Any) -> Rows:
    """Some rows, by a mask or by their numbers."""
    found: Rows = rows.view(_BYTES)[which].view(ITEM)
    return found


def joined(parts: Sequence[Rows]) -> Rows:
    found: Rows = numpy.concatenate([rows.view(_BYTES) for rows in parts]).view(ITEM)
    return found


class Fault(Exception):
    """An error that ends a command with status 1: an input that cannot be read, or is not what it should be."""


class Misuse(Fault):
    """An error in the command line, which ends it with status 2."""


def cause(error: OSError) -> str:
    """The system's words for an error, or its own text if there are none."""
    return error.strerror or str(error)


class Rules(NamedTuple):
    """A decoder's rules, as the options --burst, --reach, --loss and --share with --of give them to rds. With a `margin`, that of
    --margin, its input is symbols, which it corrects by soft decisions."""

    burst: int = 2
    reach: int = 3
    loss: int = 10
    of: int = 0
    margin: int = 0


class Reading(NamedTuple):
    """How an input is read: the rules, gaps and bits of a recording, and whether it is hexadecimal text. A listing may be a part
    of one, without its first rows, its last ones or its totals (`unfinished_ok`), or several, one after the other
    (`sessions`), or have been read by soft decisions (`is_soft`), which its totals tell too. `length` is how many bits its recording has,
    and may be far past its last row (`trust_length`)."""

    rules: Rules = Rules()
    gaps: Sequence[Tuple[int, int]] = ()
    bits: Optional[int] = None
    hex: bool = False
    unfinished_ok: bool = False
    length: Optional[int] = None
    trust_length: bool = False
    sessions: bool = False
    is_soft: bool = False


class Totals(NamedTuple):
    """The twelve totals that end a listing; `soft` are the six more of one by soft decisions."""

    valid: int
    bursts: Tuple[int, ...]
    lost: int
    bits: int
    groups: int
    complete: int
    acquired: int
    losses: int
    soft: Tuple[int, ...] = ()


def totals_of(rows: Rows) -> Totals:
    """The twelve totals of rows."""
    kinds = numpy.stack([rows[f"kind{block}"] for block in BLOCKS])
    masks = [rows[f"burst{block}"][kinds[block - 1] == CORRECTED] for block in BLOCKS]
    outcomes = numpy.bincount(kinds.reshape(-1), minlength=4)
    bursts = numpy.concatenate(masks)
    lengths = numpy.bincount(burst_lengths(bursts), minlength=6)
    what = numpy.bincount(rows["what"], minlength=4)
    # Of the outcomes only valid and corrected have the bit of 2.
    complete = (kinds[0] & kinds[1] & kinds[2] & kinds[3] & VALID) > 0
    counts = outcomes[LOST], numpy.unpackbits(bursts.view("u1")).sum(), what[GROUP], complete.sum()
    lost, bits, groups, whole = map(int, counts)
    gains, losses = int(what[ACQUIRED]), int(what[LOSS])
    of_bursts = tuple(lengths[1:6].tolist())
    return Totals(int(outcomes[VALID]), of_bursts, lost, bits, groups, whole, gains, losses)


def burst_lengths(masks: Rows) -> Rows:
    """From the first to the last bit of each error mask."""
    wide = masks.astype("i8")
    # The exponents of the highest and the lowest bit, as floating-point numbers have them.
    high, low = (value.astype("f8").view("i8") >> 52 for value in (wide, wide & -wide))
    lengths: Rows = high - low + (wide > 0)
    return lengths


def add_totals(one: Totals, other: Totals) -> Totals:
    """Of the twelve."""
    bursts = tuple(a + b for a, b in zip(one.bursts, other.bursts))
    lost, bits, groups, complete, gains, losses = (int(a) + int(b) for a, b in zip(one[2:8], other[2:8]))
    return Totals(one.valid + other.valid, bursts, lost, bits, groups, complete, gains, losses)


class Source(Protocol):
    """An input: its rows in chunks of at most some 65,536.

    `length` is how many bits the recording has, if that is known; of a recording it is, after the last chunk. `totals`
    are known after the last chunk, but for a listing that has none: it is unfinished, or a part of one. `is_soft` says that soft
    decisions correct its blocks, whether or not there are totals."""

    length: Optional[int]
    totals: Optional[Totals]
    is_soft: bool

    def chunks(self) -> Iterator[Rows]:
        ...


class Readable(Protocol):
    """A file or a pipe."""

    def read(self, size: int, /) -> bytes:
        ...
