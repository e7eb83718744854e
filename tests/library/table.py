"""The calls of cases.txt, in words: each as a call, and its answer by the library for C, by plain.py, or by librds of Python."""

from __future__ import annotations

import struct
from types import ModuleType
from typing import Any, Iterator, Sequence

import plain
from plain import Item, Read, Rules

from .calls import BLOCK, ITEM, TOTALS, Answer, Call

OFFSETS = ("-", "A", "B", "C", "Cx", "D", "C|Cx")


def call_of(text: str) -> Call:
    """The call that a line asks."""
    name, *words = text.split()
    if name in ("totals", "items"):
        data = bytes.fromhex(words[0].strip("-"))
        gaps, rules = plain.gaps_of(words[6].strip("-")), Rules(*map(int, words[2:6]))
        return Call(name, data, int(words[1]), gaps, rules)
    if name == "encode":
        groups = [[int(group[k : k + 4], 16) for k in range(0, 16, 4)] for group in words]
        return Call(name, b"".join(struct.pack("<4H", *group) for group in groups))
    if name == "remainder":
        return Call(name, begin=int(words[0], 16))
    if name == "correct":
        return Call(name, begin=int(words[0], 16), end=OFFSETS.index(words[1]), bits=int(words[2]))
    return Call("name", begin=int(words[0]), room=16) if name == "name" else Call("numbers")


# ---- texts


def block_text(block: Read | None) -> str:
    if block is None or not block.offset:
        return "missing" if block is None else "lost"
    kind = "corrected" if block.burst else "valid"
    return f"{kind} {OFFSETS[block.offset]} {block.word:04X} {block.burst:07X}"


def item_text(item: Item) -> str:
    if item.what != "group":
        return f"{item.what} {item.place} {item.number}".removesuffix(" -")
    number = -1 if item.number == "-" else item.number
    return f"group {item.place} {number} {item.version}, {', '.join(map(block_text, item.blocks))}"


def items_text(items: Sequence[Item]) -> str:
    return "; ".join([str(len(items)), *map(item_text, items)])


# ---- by the library for C


def block_of(raw: bytes) -> Read | None:
    burst, info, kind, offset = BLOCK.unpack(raw)
    return Read(offset, burst, info) if kind else None


def items_of(room: bytes) -> Iterator[Item]:
    """The items that a call wrote."""
    for place, blocks, what, number, version, conflict, _ in ITEM.iter_unpack(room):
        if what == 2:
            four = tuple(block_of(blocks[k : k + 8]) for k in range(0, 32, 8))
            kind = "-" if number == 255 else number
            yield Item("group", place, kind, " AB?"[version] + "!" * conflict, four)
        else:
            yield Item("acquired", place, number) if what == 1 else Item("lost", place)


def answer_text(text: str, call: Call, answer: Answer, names: dict[int, str]) -> str:
    """The answer of calls.c or of plain.py to the call of a line."""
    if answer.refusal:
        return f"refused {answer.refusal} {names[answer.refusal]}"
    if call.name == "totals":
        return " ".join(map(str, TOTALS.unpack(answer.found)[:12]))
    if call.name == "items":
        return items_text([*items_of(answer.room)])
    if call.name == "remainder":
        return f"{struct.unpack_from('<H', answer.found)[0]:03X}"
    if call.name == "correct":
        return block_text(block_of(answer.found[:8]))
    if call.name == "encode":
        return answer.room.hex().upper()
    if call.name == "name":
        return f"refused {call.begin} {answer.found.split(bytes(1))[0].decode()}"
    version, *rules = struct.unpack_from("<5I", answer.found)
    if text == "rules":
        return " ".join(map(str, rules))
    return f"{version >> 16}.{version >> 8 & 255}.{version & 255}"


# ---- by librds of Python


def read_of(block: Any) -> Read | None:
    return Read(OFFSETS.index(block.offset or "-"), block.burst, block.info or 0) if block.kind else None


def python_item(librds: ModuleType, item: Any) -> Item:
    if isinstance(item, librds.Acquired):
        return Item("acquired", item.place, item.number)
    if isinstance(item, librds.Loss):
        return Item("lost", item.place)
    number = "-" if item.group_type is None else item.group_type
    version = (item.version or "?") + "!" * item.conflict
    return Item("group", item.place, number, version, tuple(map(read_of, item.blocks)))


def python_text(librds: ModuleType, text: str) -> str:
    """The answer of librds; items are found as values and as an array, which must agree."""
    call, (name, *words) = call_of(text), text.split()
    asked = call.data, call.bits, call.gaps, librds.Rules(*call.rules)
    try:
        if name == "totals":
            return python_totals(librds.totals(*asked))
        if name == "items":
            items = [python_item(librds, item) for item in librds.items(*asked)]
            assert items == [*items_of(librds.items_array(*asked).tobytes())]
            return items_text(items)
        if name == "remainder":
            return f"{librds.remainder(call.begin):03X}"
        if name == "correct":
            return block_text(read_of(librds.correct(call.begin, words[1].replace("|", " or "), call.bits)))
        if name == "encode":
            return librds.encode([*struct.iter_unpack("<4H", call.data)]).hex().upper()
    except librds.Refused as refused:
        return f"refused {refused.number} {refused.name}"
    if name == "name":
        return f"refused {call.begin} {librds.Refused(call.begin).name}"
    if name == "version":
        return ".".join(map(str, librds.version()))
    rules = librds.Rules()
    return f"{rules.burst} {rules.reach} {rules.loss} {rules.of}"


def python_totals(totals: Any) -> str:
    numbers = [totals.valid, *totals.bursts, totals.lost, totals.bits, totals.groups, totals.complete]
    return " ".join(map(str, [*numbers, totals.acquired, totals.losses]))
