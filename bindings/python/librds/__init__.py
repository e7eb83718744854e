"""The proved decoder of Radio Data System bits, through librds.

    for item in librds.items(open("station.bin", "rb").read()):
        print(item)

Bits are packed into bytes, most significant bit first; a place is the position of a bit, from 0. A `Follower` decodes
a stream chunk by chunk, and `read` decodes a file or a socket. `items_array` and `Follower.push_array` give rows of a
numpy array instead of objects. Calls of several threads run at the same time.

Arguments that several calls share:

    data   the packed bytes: `bytes`, `bytearray`, `memoryview` or an array of bytes
    bits   the recording is the first `bits` bits of `data`; by default all
    gaps   places whose bits are ignored: pairs (begin, end), in order, `end` after the last place of the gap
    rules  the decoder's `Rules`

An error of the library raises `Refused`, with the number and name that the program prints too. `Error` names the
numbers. A wrong Python object raises `TypeError` or `ValueError`, and a place or `bits` that is negative or above
2^64 - 1 raises `OverflowError`.
"""

from __future__ import annotations

import array
import ctypes
import itertools
import operator
import struct
import sys
import threading
from contextlib import contextmanager
from dataclasses import dataclass
from enum import IntEnum
from typing import (
    TYPE_CHECKING,
    Any,
    AsyncIterator,
    Callable,
    Dict,
    Iterable,
    Iterator,
    List,
    Optional,
)
from typing import Sequence, Tuple, Union, cast

from . import _ffi
from ._ffi import (
    RdsBlock,
    RdsGap,
    RdsItem,
    RdsPacked,
    RdsRules,
    RdsSoft,
    RdsStream,
    RdsTotals,
    RdsWords,
)

if TYPE_CHECKING:
    import numpy
    from numpy.typing import NDArray

    ITEM: numpy.dtype[Any]

__all__ = [
    "Error",
    "Refused",
    "OutOfMemory",
    "Rules",
    "Totals",
    "Kind",
    "Block",
    "Acquired",
    "Group",
    "Loss",
    "Follower",
    "SoftFollower",
    "read",
    "read_async",
    "totals",
    "items",
    "ITEM",
    "items_array",
    "remainder",
    "correct",
    "encode",
    "version",
]

Buffer = Union[bytes, bytearray, memoryview, "NDArray[Any]"]
Gaps = Iterable[Sequence[int]]

_library = _ffi.load()
_OFFSETS = (None, "A", "B", "C", "Cx", "D")
# The names of C' and of either offset of a block 3 have a second spelling.
_NUMBERS = {
    "A": 1,
    "B": 2,
    "C": 3,
    "Cx": 4,
    "D": 5,
    "C or Cx": 6,
    "C'": 4,
    "C or C'": 6,
}


class Error(IntEnum):
    """The numbers of errors."""

    BURST_RANGE = 1
    REACH_RANGE = 2
    LOSS_RANGE = 3
    BITS_PAST_BYTES = 4
    TOO_LONG = 5
    OUT_OF_MEMORY = 8
    SHARE_RANGE = 15
    BAD_GAPS = 16
    SMALL_ROOM = 64
    UNLAWFUL_STATE = 65
    PLACE_RANGE = 66
    BLOCK_RANGE = 67
    OFFSET_RANGE = 68
    NO_REFUSAL = 69
    BAD_POINTER = 70
    RESERVED_FIELD = 71
    NOT_A_STREAM = 72
    OTHER_VERSION = 73
    OTHER_RULES = 74
    MARGIN_RANGE = 75


_CAUSES = (Error.NOT_A_STREAM, Error.OTHER_VERSION, Error.OTHER_RULES)


class Refused(ValueError):
    """An error of the library: its `number`, which never changes its meaning, its `name`, such as "TooLong", and the
    `reason` in words. If `Error.UNLAWFUL_STATE` has a cause with a name, such as `Error.OTHER_RULES`, `cause` is its
    number, and the reason is the cause's; else `cause` is the number."""

    def __new__(cls, number: int, cause: int = 0) -> Refused:
        kind: Any = OutOfMemory if number == Error.OUT_OF_MEMORY else cls
        error: Refused = super().__new__(kind)
        return error

    def __init__(self, number: int, cause: int = 0):
        self.number, self.cause = number, cause or number
        self.name = _text(_library.rds_refusal_text, number)
        self.reason = _text(_library.rds_refusal_reason, self.cause)
        super().__init__(f"refused {number} {self.name}: {self.reason}")

    def __reduce__(self) -> tuple[type[Refused], tuple[int, int]]:
        return Refused, (self.number, self.cause)


class OutOfMemory(Refused, MemoryError):
    """The error `Error.OUT_OF_MEMORY`, which is a `MemoryError` too."""


def _text(texts: Callable[[int], bytes], number: int) -> str:
    """A text of the library, or nothing if it does not know the number."""
    text = texts(_within(number, 255)).decode()
    return "" if text == "unknown" else text


@dataclass(frozen=True)
class Rules:
    """A decoder's rules. The defaults are the program's.

    burst  correct error bursts of up to this number of bits, 0 to 5
    reach  sync needs two valid blocks, at most this number of blocks apart (1 to 8), whose
           offset words fit each other
    loss   drop sync after this number of bad blocks, 1 to 64
    of     0 if these are in a row, else among how many of the last blocks, `loss` to 64
    """

    burst: int = 2
    reach: int = 3
    loss: int = 10
    of: int = 0


@dataclass(frozen=True)
class Totals:
    """The twelve totals of a listing: blocks that are valid, corrected by the length of their burst, 1 to 5 bits, or
    uncorrectable; bits corrected; groups, and those of which all four blocks are known; acquisitions and losses of
    block sync."""

    valid: int
    bursts: Tuple[int, ...]
    lost: int
    bits: int
    groups: int
    complete: int
    acquired: int
    losses: int


class Kind(IntEnum):
    """The outcome of a block: not read, uncorrectable, valid or corrected."""

    MISSING = 0
    LOST = 1
    VALID = 2
    CORRECTED = 3


@dataclass(frozen=True)
class Block:
    """A block: its offset ("A", "B", "C", "Cx" for C', or "D") and its information word, if valid or corrected, and the
    error mask."""

    kind: Kind
    offset: Optional[str] = None
    info: Optional[int] = None
    burst: int = 0


@dataclass(frozen=True)
class Acquired:
    """Block sync was acquired by the block of this number, 1 to 4, whose last bit is at `place`."""

    place: int
    number: int


@dataclass(frozen=True)
class Group:
    """A group: the place of its first bit that was read, its four blocks, its type, 0 to 15, and version, "A" or "B",
    if they are known, and whether blocks 2 and 3 name different versions."""

    place: int
    blocks: Tuple[Block, ...]
    group_type: Optional[int]
    version: Optional[str]
    conflict: bool

    @property
    def words(self) -> Tuple[Optional[int], ...]:
        """The information words of the four blocks, if they are known."""
        return tuple(block.info for block in self.blocks)


@dataclass(frozen=True)
class Loss:
    """Block sync was lost by the block whose last bit is at `place`."""

    place: int


Item = Union[Acquired, Group, Loss]


# ---- arguments


def _within(number: int, top: int) -> int:
    """An integer as an argument of C. One that is not 0 to `top` becomes `top`, which the library refuses: nothing is
    wrapped."""
    number = operator.index(number)
    return number if 0 <= number <= top else top


def _place(number: int) -> int:
    number = operator.index(number)
    if not 0 <= number < 2**64:
        raise OverflowError(f"{number} is no place")
    return number


def _view(data: Buffer) -> memoryview:
    """The bytes of a buffer. An integer, a text, and an array of anything but bytes are none."""
    view = memoryview(cast(bytes, data))
    if view.format not in ("B", "b", "c"):
        raise TypeError(f"a buffer of bytes is needed, not one of format {view.format!r}")
    return view.cast("B") if view.contiguous else memoryview(view.tobytes())


def _bytes(data: Buffer) -> bytes:
    return data if type(data) is bytes else _view(data).tobytes()


def _terms(gaps: Gaps, rules: Rules) -> tuple[Any, ...]:
    """Gaps and rules, as ctypes takes them."""
    if not isinstance(rules, Rules):
        raise TypeError(f"rules are a librds.Rules, not {type(rules).__name__}")
    numbers = (rules.burst, rules.reach, rules.loss, rules.of)
    places = array.array("Q", map(_place, itertools.chain.from_iterable(_pairs(gaps))))
    count = len(places) // 2
    lent = (RdsGap * count).from_buffer(places) if count else None
    return lent, count, RdsRules(*(_within(number, 2**32 - 1) for number in numbers))


def _recording(data: Buffer, bits: Optional[int]) -> tuple[bytes, int, int]:
    """Bytes, and how many there are of them and of bits."""
    given = _bytes(data)
    return given, len(given), 8 * len(given) if bits is None else _place(bits)


def _asked(data: Buffer, bits: Optional[int], gaps: Gaps, rules: Rules) -> tuple[Any, ...]:
    """The arguments that most calls share."""
    return *_recording(data, bits), *_terms(gaps, rules)


def _pairs(gaps: Gaps) -> Iterator[Sequence[int]]:
    for gap in gaps:
        if len(gap) != 2:
            raise ValueError(f"a gap is two places, not {gap!r}")
        yield gap


def _check(number: int) -> None:
    if number:
        raise Refused(number)


# ---- items


def _item_dtype() -> numpy.dtype[Any]:
    import numpy

    block = (("burst", "<u4"), ("info", "<u2"), ("kind", "u1"), ("offset", "u1"))
    blocks = [(f"{name}{number}", form) for number in (1, 2, 3, 4) for name, form in block]
    rest = [(name, "u1") for name in ("what", "number", "version", "conflict")]
    return numpy.dtype([("place", "<u8"), *blocks, *rest], align=True)


def __getattr__(name: str) -> Any:
    # numpy is needed only by those who ask for arrays.
    if name != "ITEM":
        raise AttributeError(f"module {__name__!r} has no attribute {name!r}")
    globals()["ITEM"] = _item_dtype()
    return globals()["ITEM"]


# Room for items: a call of rds_push takes 960 bytes at once, of which each completes at most 16.
_ROOM = 16 * 960
_Room = RdsItem * _ROOM
# How many bytes a call of rds_push is offered.
_OFFERED = 1 << 17
_spare: List[Any] = []


@contextmanager
def _lent_room(count: int) -> Iterator[Any]:
    """Room for at least this number of items. A small one is used again, by any thread."""
    if count > _ROOM:
        yield (RdsItem * count)()
        return
    try:
        room = _spare.pop()
    except IndexError:
        room = _Room()
    yield room
    _spare.append(room)


def _filled(count: int, call: Callable[[Any, int, Any], int], take: Callable[[Any, int], Any]) -> Any:
    """What `take` makes of the items that a call writes. A second call has the room that the first one asked for."""
    found, number = ctypes.c_uint64(count), int(Error.SMALL_ROOM)
    while number == Error.SMALL_ROOM:
        with _lent_room(found.value) as room:
            number = call(room, len(room), found)
            if number == 0:
                return take(room, found.value)
    raise Refused(number)


def _rows(room: Any, count: int) -> NDArray[Any]:
    """The items as rows, in memory of their own."""
    import numpy

    kept = bytearray(_stored(room, count)) if type(room) is _Room else room
    rows: NDArray[Any] = numpy.frombuffer(kept, sys.modules[__name__].ITEM, count)
    return rows


def _values(room: Any, count: int) -> Iterator[Item]:
    return itertools.starmap(_item, _ROW.iter_unpack(_stored(room, count)))


def _stored(room: Any, count: int) -> bytes:
    """A copy of the items as bytes: numpy copies and joins rows of many fields slowly."""
    return ctypes.string_at(room, count * _ROW.size)


# The fields of RdsItem, with each block as its bytes, and those of RdsBlock.
_ROW = struct.Struct("=Q8s8s8s8sBBBBI")
_BLOCK = struct.Struct("=IHBB")
_VERSIONS = (None, "A", "B", None)


class _Blocks(Dict[bytes, Block]):
    """Blocks by their bytes. Equal blocks are one object, since a station repeats most of them."""

    MOST = 1 << 14

    def __missing__(self, key: bytes) -> Block:
        if len(self) >= self.MOST:
            self.clear()
        self[key] = block = _block(*_BLOCK.unpack(key))
        return block


_blocks = _Blocks()


def _block(burst: int, info: int, kind: int, offset: int) -> Block:
    return Block(Kind(kind), _OFFSETS[offset], info if kind >= Kind.VALID else None, burst)


def _item(
    place: int,
    first: bytes,
    second: bytes,
    third: bytes,
    fourth: bytes,
    what: int,
    number: int,
    version: int,
    conflict: int,
    _unused: int,
) -> Item:
    if what == 2:
        blocks = (_blocks[first], _blocks[second], _blocks[third], _blocks[fourth])
        group_type = None if number == 255 else number
        return Group(place, blocks, group_type, _VERSIONS[version], conflict == 1)
    return Acquired(place, number) if what == 1 else Loss(place)


def _totals(found: RdsTotals) -> Totals:
    return Totals(
        found.valid,
        tuple(found.bursts),
        found.lost,
        found.bits,
        found.groups,
        found.complete,
        found.acquired,
        found.losses,
    )


# ---- recordings


def totals(data: Buffer, bits: Optional[int] = None, gaps: Gaps = (), rules: Rules = Rules()) -> Totals:
    """The totals of a recording.

    Example:

        found = librds.totals(open("station.bin", "rb").read())
        print(found.valid, found.groups)
    """
    found = RdsTotals()
    _check(_library.rds_totals(*_asked(data, bits, gaps, rules), found))
    return _totals(found)


def _items(take: Callable[[Any, int], Any], asked: tuple[Any, ...]) -> Any:
    """The room is by the bytes: a claim of more bits than they hold is refused, and must not take memory first."""
    call = lambda room, size, count: int(_library.rds_items(*asked, room, size, count))
    return _filled(max(64, asked[1] // 10), call, take)


def items(
    data: Buffer, bits: Optional[int] = None, gaps: Gaps = (), rules: Rules = Rules()
) -> Iterator[Item]:
    """The items of a recording, in order of completion: `Acquired`, `Group` and `Loss`.

    Example:

        for item in librds.items(data, gaps=[(104, 130)], rules=librds.Rules(burst=0)):
            if isinstance(item, librds.Group):
                print(item.place, item.group_type, item.version)
    """
    items: Iterator[Item] = _items(_values, _asked(data, bits, gaps, rules))
    return items


def items_array(
    data: Buffer, bits: Optional[int] = None, gaps: Gaps = (), rules: Rules = Rules()
) -> NDArray[Any]:
    """The same as a numpy array of the dtype `ITEM`, a row per item, which pandas.DataFrame takes. It needs numpy.

        rows = librds.items_array(data)
        programmes = rows["info1"][(rows["what"] == 2) & (rows["kind1"] == librds.Kind.VALID)]

    `what` is 1 for an acquisition, 2 for a group and 3 for a loss. `number` is the number of the block that acquired,
    or the group type, 255 if it is not known. `version` is 1 for A, 2 for B and 3 if it is not known. For block N of a
    group, `kindN` is its `Kind`, `offsetN` is 1 to 5 for A, B, C, Cx and D, `infoN` its information word and `burstN`
    the error mask.
    """
    rows: NDArray[Any] = _items(_rows, _asked(data, bits, gaps, rules))
    return rows


# ---- streams


class Follower:
    """A stream that is decoded chunk by chunk. However it is cut, the items of all chunks and the group at the end are
    those that `items` gives for the whole.

        follower = librds.Follower()
        for chunk in chunks:
            for item in follower.push(chunk):
                print(item)
        group, totals = follower.finish()

    Gaps are places in the stream, and may be later than all bytes so far. `stream` continues the stream of another
    Follower with the same rules and gaps: it is that one's property `stream`. If its bytes are of no stream, or other
    rules wrote them, the error is `Refused` 65, with the cause. Threads may share a Follower: their calls run one after
    the other.
    """

    def __init__(self, rules: Rules = Rules(), gaps: Gaps = (), stream: bytes = bytes(256)):
        if len(_bytes(stream)) != ctypes.sizeof(RdsStream):
            raise ValueError("a stream is 256 bytes")
        self._rules, self._gaps, self._stream = (
            rules,
            list(gaps),
            RdsStream.from_buffer_copy(stream),
        )
        self._terms = _terms(self._gaps, rules)
        self._lock = threading.Lock()
        number = int(_library.rds_check(*self._terms, self._stream))
        if number:
            raise Refused(Error.UNLAWFUL_STATE if number in _CAUSES else number, number)

    def __reduce__(self) -> tuple[type[Follower], tuple[Rules, Gaps, bytes]]:
        return Follower, (self._rules, self._gaps, self.stream)

    def push(self, data: Buffer) -> list[Item]:
        """The items that the next bytes complete. Past 2^36 bits it raises `Refused` 5. On error the stream is unchanged."""
        return [item for part in self._push(_values, data) for item in part]

    def push_array(self, data: Buffer) -> NDArray[Any]:
        """The same as rows of the dtype `ITEM`, as `items_array` gives them."""
        import numpy

        items = bytearray().join(self._push(_stored, data))
        rows: NDArray[Any] = numpy.frombuffer(items, sys.modules[__name__].ITEM)
        return rows

    def finish(self) -> tuple[Optional[Group], Totals]:
        """The group in progress, as far as it was read, and the totals of everything heard, if the stream ended here.
        The stream can continue."""
        items, found = self._finish(_values, b"", None)
        return next(items, None), found

    def finish_with(self, data: Buffer, bits: Optional[int] = None) -> tuple[list[Item], Totals]:
        """The items that the first `bits` bits of these bytes complete, by default all, then the group in progress, and
        the totals of everything heard and of these bits, if the stream ended with them: inside a byte, for example. The
        stream can continue.
        """
        items, found = self._finish(_values, data, bits)
        return list(items), found

    def finish_array(self, data: Buffer = b"", bits: Optional[int] = None) -> tuple[NDArray[Any], Totals]:
        """The same with the items as rows of the dtype `ITEM`."""
        rows, found = self._finish(_rows, data, bits)
        return rows, found

    def _push(self, take: Callable[[Any, int], Any], data: Buffer) -> list[Any]:
        """What `take` makes of the items, in parts: a call takes as many bytes as have room, and room for 16 items is never
        too little."""
        view, done = _view(data), 0
        parts: list[Any] = []
        taken, count = ctypes.c_uint64(), ctypes.c_uint64()
        with self._lock, _lent_room(0) as room:
            stream = RdsStream.from_buffer_copy(self._stream)
            while not parts or done < len(view):
                chunk = bytes(view[done : done + _OFFERED])
                given = (
                    chunk,
                    len(chunk),
                    *self._terms,
                    stream,
                    room,
                    len(room),
                    taken,
                    count,
                )
                _check(_library.rds_push(*given))
                parts.append(take(room, count.value))
                done += taken.value
            self._stream = stream
        return parts

    def _finish(
        self, take: Callable[[Any, int], Any], data: Buffer, bits: Optional[int]
    ) -> tuple[Any, Totals]:
        asked, found = _recording(data, bits), RdsTotals()
        with self._lock:
            given = (*asked, *self._terms, self._stream)
            call = lambda room, size, count: int(_library.rds_finish_with(*given, room, size, count, found))
            items = _filled(8 + asked[1] // 4, call, take)
        return items, _totals(found)

    @property
    def place(self) -> int:
        """The number of bits heard."""
        with self._lock:
            return int(self._stream.place)

    @property
    def stream(self) -> bytes:
        """The state of the stream, 256 bytes: zeros before the first push. They can be stored, and after it are equal if the same bytes
        were heard."""
        with self._lock:
            return bytes(self._stream)


# How many symbols a call of rds_push_soft takes at most, and the one after them.
_SYMBOLS = 8 * 960 + 1


class SoftFollower:
    """A stream of symbols that is decoded chunk by chunk: soft decisions. A symbol is a signed byte: its sign tells the
    bits beside it, its size how sure it is, in units of 1/16 nat. The items are those of the bits, each group read again
    from its symbols: a corrected block has any error mask, not only a burst.

        follower = librds.SoftFollower()
        for chunk in chunks:
            for item in follower.push(chunk):
                print(item)

    All other flips of a block's symbols must weigh by `margin` more than those that are corrected: 1 to 127, else it is
    `Refused` 75. The default is two nats. `stream` continues in a Follower, by bits, to its end for example.
    """

    def __init__(self, rules: Rules = Rules(), gaps: Gaps = (), margin: int = 32):
        self._gaps = list(gaps)
        self._terms = (*_terms(self._gaps, rules), _within(margin, 255))
        self._soft, self._rest = RdsSoft(), b""
        self._lock = threading.Lock()
        self.push(b"")

    def push(self, symbols: Buffer) -> list[Item]:
        """The items that the next symbols complete, up to seven bits late. Past 2^36 bits it raises `Refused` 5. On error
        the stream is unchanged."""
        return [item for part in self._push(_values, symbols) for item in part]

    def push_array(self, symbols: Buffer) -> NDArray[Any]:
        """The same as rows of the dtype `ITEM`, as `items_array` gives them."""
        import numpy

        items = bytearray().join(self._push(_stored, symbols))
        rows: NDArray[Any] = numpy.frombuffer(items, sys.modules[__name__].ITEM)
        return rows

    def _push(self, take: Callable[[Any, int], Any], symbols: Buffer) -> list[Any]:
        """What `take` makes of the items, in parts. The last symbols, eight at most, wait for the next."""
        parts: list[Any] = []
        taken, count, done = ctypes.c_uint64(), ctypes.c_uint64(), 0
        with self._lock, _lent_room(0) as room:
            given, soft = self._rest + _bytes(symbols), RdsSoft.from_buffer_copy(self._soft)
            while not parts or len(given) - done > 8:
                chunk = given[done : done + _SYMBOLS]
                lent = (ctypes.c_int8 * len(chunk)).from_buffer_copy(chunk), len(chunk)
                _check(_library.rds_push_soft(*lent, *self._terms, soft, room, len(room), taken, count))
                parts.append(take(room, count.value))
                done += taken.value
            self._soft, self._rest = soft, given[done:]
        return parts

    @property
    def stream(self) -> bytes:
        """The state of the stream of bits, as `Follower.stream`."""
        with self._lock:
            return bytes(self._soft.stream)


# ---- files and sockets

# How many bytes are read at once, at most.
_CHUNK = 4096


def read(stream: Any, follower: Optional[Follower] = None) -> Iterator[Item]:
    """The items of the bits of a binary file or a socket, each as soon as it is complete. At the end of the file the group
    in progress comes last.

        follower = librds.Follower()
        for item in librds.read(sys.stdin.buffer, follower):
            print(item)
        totals = follower.finish()[1]

    The follower has its rules and gaps, and hears all bytes that were read. If the stream raises an error, such as a
    timeout or `BlockingIOError`, a new call with the same follower continues.
    """
    follower = follower or Follower()
    take = getattr(stream, "recv", None) or getattr(stream, "read1", None) or stream.read
    while True:
        data = take(_CHUNK)
        if data is None:
            raise BlockingIOError("the stream has no bytes yet")
        if not data:
            break
        yield from follower.push(data)
    yield from follower.finish_with(b"")[0]


async def read_async(stream: Any, follower: Optional[Follower] = None) -> AsyncIterator[Item]:
    """The same of a stream with an asynchronous `read`, such as an `asyncio.StreamReader`.

    async for item in librds.read_async(reader):
        print(item)
    """
    follower = follower or Follower()
    while data := await stream.read(_CHUNK):
        for item in follower.push(data):
            yield item
    for item in follower.finish_with(b"")[0]:
        yield item


# ---- single blocks and groups


def remainder(word: int) -> int:
    """The remainder of a 26-bit word by the generator of the block code, below 1024. A longer word is `Refused` 67.

    librds.remainder(0x400) == 0x1B9
    """
    found = ctypes.c_uint16()
    _check(_library.rds_remainder(_within(word, 2**32 - 1), found))
    return found.value


def correct(word: int, offset: str, limit: int = 2) -> Block:
    """A 26-bit word read as the block with this offset, "A" to "D", or "C or Cx" if it may be either. A burst of up to
    `limit` bits, 0 to 5, is corrected if exactly one fits.

    librds.correct(0x9580C8, "A", 1) == librds.Block(librds.Kind.CORRECTED, "A", 0x2540, 0x8000)
    """
    found = RdsBlock()
    _check(
        _library.rds_correct(
            _within(word, 2**32 - 1),
            _NUMBERS.get(offset, 0),
            _within(limit, 255),
            found,
        )
    )
    return _blocks[bytes(found)]


def _words(group: Sequence[int]) -> RdsWords:
    words = [operator.index(word) for word in group]
    if len(words) != 4 or not all(0 <= word < 2**16 for word in words):
        raise ValueError(f"a group is four 16-bit words, not {group!r}")
    return RdsWords((ctypes.c_uint16 * 4)(*words))


def encode(groups: Iterable[Sequence[int]]) -> bytes:
    """The bits of groups as they are sent, from the information words of their four blocks: 13 bytes per group.

    librds.encode([(0x1234, 0x2540, 0x5244, 0x5320)]).hex() == "12341a89501ac52449594c83fb"
    """
    words = [_words(group) for group in groups]
    room = (RdsPacked * max(1, len(words)))()
    _check(_library.rds_encode((RdsWords * max(1, len(words)))(*words), len(words), room, len(words)))
    return bytes(room)[: 13 * len(words)]


def version() -> tuple[int, int, int]:
    """The version of the library."""
    return _ffi.version_of(_library)
