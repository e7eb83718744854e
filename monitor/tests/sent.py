"""Groups as stations send them: a second reading of the standard's layouts, apart from fields.py."""

from __future__ import annotations

from typing import Any, List, NamedTuple, Optional, Sequence, Tuple

import numpy

from rds_monitor.content.decoder import Decoder, Event
from rds_monitor.rows.items import ACQUIRED, CORRECTED, GROUP, ITEM, LOST, VALID, Rows

Words = Tuple[int, int, int, int]
PI = 0xD318


def group(
    kind: str, low: int, third: int = 0, fourth: int = 0, pi: int = PI, tp: int = 1, pty: int = 10
) -> Words:
    """A group of a type such as 0A: five bits of block 2, and blocks 3 and 4. Version B repeats the PI in block 3."""
    is_b = kind[-1] == "B"
    second = int(kind[:-1]) << 12 | is_b << 11 | tp << 10 | pty << 5 | low
    return pi, second, pi if is_b else third, fourth


def pairs(text: bytes, count: int) -> List[int]:
    """A text as words, padded with blanks."""
    text = text.ljust(2 * count)
    return [int.from_bytes(text[2 * k : 2 * k + 2], "big") for k in range(count)]


def name(
    text: bytes, af: Sequence[int] = (0xE0CD,) * 4, flags: int = 8, kind: str = "0A", **options: Any
) -> List[Words]:
    """Groups 0: PS, AF, TA (16), music (8) and DI bits (4)."""
    lists = [*af, *(0xCDCD for _ in range(4))][:4]
    return [group(kind, flags | k, lists[k], pair, **options) for k, pair in enumerate(pairs(text, 4))]


def segments(kind: str, content: bytes, count: int = 0, first: int = 0, **options: Any) -> List[Words]:
    """Groups with four characters each, numbered from `first` on: as many as the text needs, or this number."""
    words = pairs(content, 2 * (count or -(-len(content) // 4)))
    return [group(kind, first + k, *two, **options) for k, two in enumerate(zip(words[::2], words[1::2]))]


def text(content: bytes, flag: int = 0, kind: str = "2A", **options: Any) -> List[Words]:
    """Groups 2: RadioText, in as many groups as it needs."""
    if kind == "2A":
        return segments(kind, content, first=flag << 4, **options)
    words = pairs(content, -(-len(content) // 2))
    return [group(kind, flag << 4 | k, 0, word, **options) for k, word in enumerate(words)]


def type_name(content: bytes, flag: int = 0) -> List[Words]:
    return segments("10A", content, 2, flag << 4)


def eon(variant: int, third: int, pi: int = 0xD312, tp: int = 0) -> Words:
    return group("14A", tp << 4 | variant, third, pi)


def eon_name(content: bytes, pi: int = 0xD312) -> List[Words]:
    return [eon(k, pair, pi) for k, pair in enumerate(pairs(content, 4))]


def clock(day: int, hour: int, minute: int, half_hours: int) -> Words:
    days, hours = (day & 0x7FFF) << 1 | hour >> 4, (hour & 15) << 12
    return group("4A", day >> 15, days, hours | minute << 6 | (half_hours < 0) << 5 | abs(half_hours))


def label(variant: int, value: int, pin: int = 0, linkage: int = 0) -> Words:
    return group("1A", 0, linkage << 15 | variant << 12 | value, pin)


def oda(aid: int, kind: str, message: int = 0) -> Words:
    return group("3A", int(kind[:-1]) << 1 | (kind[-1] == "B"), message, aid)


def tags(toggle: int, running: int, *tag: Tuple[int, int, int], kind: str = "11A") -> Words:
    """A group of RadioText Plus: up to two tags of content type, start, and length less one."""
    (class1, start1, more1), (class2, start2, more2) = (*tag, (0, 0, 0), (0, 0, 0))[:2]
    third = (class1 & 7) << 13 | start1 << 7 | more1 << 1 | class2 >> 5
    fourth = (class2 & 31) << 11 | start2 << 5 | more2
    return group(kind, toggle << 4 | running << 3 | class1 >> 3, third, fourth)


class Damage(NamedTuple):
    """What became of a group: a block's number, and LOST, CORRECTED, or CORRECTED with another word."""

    block: int
    kind: int
    word: Optional[int] = None


# By the numbers of the groups.
Damages = Sequence[Tuple[int, Damage]]


def rows_of(groups: Sequence[Words], damage: Damages = (), acquired: Sequence[int] = (0,)) -> Rows:
    """The rows of groups, with damage to some, and acquisitions before others."""
    by_group: dict[int, List[Damage]] = {}
    for number, one in damage:
        by_group.setdefault(number, []).append(one)
    found: List[Any] = []
    for number, words in enumerate(groups):
        if number in acquired:
            found.append((104 * number + 25, *(0,) * 16, ACQUIRED, 1, 0, 0))
        is_b = words[1] >> 11 & 1
        blocks = [[0, word, VALID, offset] for word, offset in zip(words, (1, 2, 4 if is_b else 3, 5))]
        for one in by_group.get(number, ()):
            block = blocks[one.block - 1]
            if one.kind == LOST:
                block[:] = [0, 0, LOST, 0]
            else:
                block[:3] = [1, block[1] if one.word is None else one.word, CORRECTED]
        lost = blocks[1][2] == LOST
        kind, version = (255, 3) if lost else (blocks[1][1] >> 12, 2 if blocks[1][1] >> 11 & 1 else 1)
        found.append((104 * number, *(entry for block in blocks for entry in block), GROUP, kind, version, 0))
    return numpy.array(found, ITEM)


def events_of(
    groups: Sequence[Words], damage: Damages = (), acquired: Sequence[int] = (0,), **options: Any
) -> List[Event]:
    return Decoder(**options).feed(rows_of(groups, damage, acquired))


def told(events: Sequence[Event], *items: str) -> List[Any]:
    """The values of an item, or of several, in their order."""
    return [event.value for event in events if event.item in items]
