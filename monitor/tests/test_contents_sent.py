"""Receptions whose contents are easily told wrongly, each with all that its station sent."""

from __future__ import annotations

import json
from typing import Any, Dict, List, NamedTuple, Optional, Sequence, Tuple

import pytest
import sent
from made import listing, lock, read, said
from rds_monitor.content.decoder import Decoder
from test_counting import fed

PI = 0xD3C2
Group = Tuple[Optional[int], ...]
LOST: Group = (PI, None, None, None)


def segments(content: str, first: int = 0) -> List[Group]:
    """Groups 0A with two characters each, whose segments are from `first` on, round and round."""
    words = [int.from_bytes(content[k : k + 2].encode(), "big") for k in range(0, len(content), 2)]
    return [(PI, 0x0228 | (first + k) % 4, 0xE0E0, word) for k, word in enumerate(words)]


def text(content: str, flag: int = 0) -> List[Group]:
    """Groups 2A of a whole RadioText."""
    return [*sent.text(content.encode(), flag, pi=PI, tp=0, pty=17)]


def without(groups: Sequence[Group], *lost: int) -> List[Group]:
    return [LOST if number in lost else group for number, group in enumerate(groups)]


class Case(NamedTuple):
    """Groups as they were received, and all values of some items that may be told, in order."""

    groups: Sequence[Group]
    told: Dict[str, Sequence[Any]]


CASES = {
    "the end of a name, then two names once each": Case(
        segments(" FM NOW ON  AIR WITH", first=2), {"ps": ["NOW ON", "AIR WITH"]}
    ),
    "names of one turn, of which each loses a block": Case(
        without(segments("RADIO 1 RADIO 2 RADIO 3 "), 2, 5, 11), {"ps": []}
    ),
    "two names in two turns each, the same block lost in both": Case(
        without(segments("RADIO 1 RADIO 1 RADIO 2 RADIO 2 "), 3, 7), {"ps": ["RADIO 2"]}
    ),
    "two turns of a name, of which each loses another block": Case(
        without(segments("RADIO 1 RADIO 1 RADIO 1 "), 1, 7, 10), {"ps": ["RADIO 1"]}
    ),
    "two turns of a text without a flag, of which each loses another block": Case(
        without(2 * text("Another text now\r   ") + text("And "), 1, 8), {"rt": ["Another text now"]}
    ),
    "halves of two texts without a flag": Case(
        without(text("The first text\r ") + text("The other news\r "), 2, 3, 4, 5), {"rt": []}
    ),
    "a text whose fifth segment is lost in each turn": Case(
        3 * [*text("from on quick th"), LOST], {"rt": [], "rt_ab": ["A"]}
    ),
    "RadioText Plus in no group of its own": Case(
        [(PI, 0x3000, 0, 0x4BD7), *text("Hello there\r"), *segments("PINK FM ")],
        {"rt": ["Hello there"], "ps": ["PINK FM"], "rt_plus_running": [], "rt_plus:item.title": []},
    ),
}


def told(data: bytes, size: int = 10**6) -> List[Tuple[str, Any]]:
    """The items and values that are told of a listing in chunks."""
    return [(event.item, event.value) for event in fed(Decoder(), read(data), size)]


@pytest.mark.parametrize("size", [10**6, 1])
@pytest.mark.parametrize("title", CASES)
def test_nothing_is_told_that_was_not_sent(title: str, size: int) -> None:
    groups, expected = CASES[title]
    found = told(listing(lock(104, groups)), size)
    for item, values in expected.items():
        assert [value for name, value in found if name == item] == list(values), item


def test_halves_of_two_names_around_an_hour_without_sync() -> None:
    first, second = segments("JAZZ FM "), segments("THE NEWS")
    rows = [*lock(104, first[:2]), *lock(104 + 3600 * 1187, second[2:])]
    assert "ps" not in dict(told(listing(rows)))


def test_turns_are_joined_if_none_between_them_was_missed() -> None:
    first, later = without(segments("RADIO 1 "), 3), without(segments("RADIO 1 RADIO 1 "), 0, 4, 5)
    for gap, name in ((3, "RADIO 1"), (9, None)):
        rows = [*lock(104, first), *lock(104 * (5 + gap), later)]
        assert dict(told(listing(rows))).get("ps") == name, gap


def redsea(*groups: str) -> List[Dict[str, Any]]:
    lines = ["acquired,51,2,-,-,-,-,-", *(f"group,{104 * k},{row}" for k, row in enumerate(groups, 1))]
    data = "".join(line + "\n" for line in lines).encode()
    return [json.loads(line) for line in said("json", "--redsea", "--unfinished", data=data)]


def test_redsea_has_no_clock_time_of_a_group_before() -> None:
    """The second group's last block is corrected, so its time does not count."""
    found = redsea("4,A,A:D3C2,B:4001,C:DC90,D:A000", "4,A,A:D3C2,B:4001,C:DC90,D:A040~0000004")
    assert [group.get("clock_time") for group in found] == ["2025-11-21T10:00:00Z", None]


def test_redsea_has_the_start_of_a_programme_item_by_its_own_number() -> None:
    """FE3C is day 31, hour 24, minute 60: no time of day. One with a corrected block does not count."""
    groups = ["1,A,A:D3C2,B:1000,C:00E0,D:2987", "1,A,A:D3C2,B:1000,C:00E0,D:FE3C"]
    found = redsea(*groups, f"{groups[1]}~0000004")
    assert [group.get("prog_item_number") for group in found] == [0x2987, 0xFE3C, None]
    assert [group.get("prog_item_started") for group in found] == [{"day": 5, "time": "06:07"}, None, None]


def test_redsea_has_no_text_of_the_flag_before() -> None:
    """The same text under another flag comes again once it is whole."""
    first = "0,A,A:D3C2,B:0228,C:E0E0,D:4141"

    def texts(*groups: Group) -> List[Any]:
        lines = ["2,A,A:D3C2,B:%04X,C:%04X,D:%04X" % words[1:] for words in groups]
        return [(group.get("rt_ab"), group.get("radiotext")) for group in redsea(first, *lines)[1:]]

    groups = [*text("Hi\r ", 0), *text("Hi\r ", 1)]
    assert texts(*groups, groups[1]) == [("A", "Hi"), ("B", "Hi"), ("B", "Hi")]
    again = 2 * [*text("Two segs\r", 0), *text("Two segs\r", 1)]
    assert [whole for _, whole in texts(*again)] == 4 * [None, None, "Two segs"]
    assert texts(groups[0], *text("Two segs", 1)) == [("A", "Hi"), ("B", None), ("B", None)]
