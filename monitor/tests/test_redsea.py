"""Groups as redsea's JSON: the same however the rows are cut, and each text of a group in turn made once."""

from __future__ import annotations

import json
from typing import Any, Iterator, List

import numpy
import pytest

from conftest import rds
from made import read
from rds_monitor.content.decoder import Decoder
from rds_monitor.content.redsea import Redsea
from rds_monitor.rows.clock import Clock
from rds_monitor.rows.items import CORRECTED, LOST, Rows
from sent import Damage, group, label, name, rows_of, segments, text, type_name


@pytest.fixture(scope="module")
def rows() -> Rows:
    """A station whose name, text and type's name change, with one bit in 200 wrong."""
    sent = []
    for n in range(40):
        sent += (
            name(b"NAME %3d" % (n % 2)) * 3
            + text(b"A text of many segments, number %d\r" % (n % 2)) * 4
            + type_name(b"Type %d" % (n % 2)) * 3
            + segments("8A", b"Service%d" % (n % 2), 2, 0x14)
            + [group("8A", n), group("8A", 15, 701, 4321)]
        )
    bits = numpy.frombuffer(
        rds("encode", data="".join("%04X%04X%04X%04X\n" % tuple(words) for words in sent).encode()), "u1"
    )
    wrong = numpy.packbits(numpy.random.default_rng(1).random(8 * len(bits)) < 0.005)
    return read(rds("list", data=(bits ^ wrong).tobytes()))


def lines(rows: Rows, bounds: List[int], clock: Clock = Clock()) -> Iterator[str]:
    redsea = Redsea(Decoder(lapses=True))
    for begin, end in zip([0, *bounds], [*bounds, len(rows)]):
        yield from redsea.lines(rows[begin:end], clock)


def test_chunks_and_lines_that_are_remembered_change_nothing(rows: Rows, monkeypatch: Any) -> None:
    whole = list(lines(rows, []))
    assert (
        len(whole) > 500
        and any("radiotext" in line for line in whole)
        and any('"ps"' in line for line in whole)
    )
    assert list(lines(rows, list(range(1, len(rows), 5)))) == whole
    timed = [line.replace(',"rx_time"', "|").partition("|") for line in lines(rows, [], Clock(0.0))]
    assert [before + after[27:] for before, _, after in timed] == whole
    monkeypatch.setattr("rds_monitor.content.redsea.MOST_WRITTEN", 0)
    assert list(lines(rows, [])) == whole


def test_times_are_told_while_the_start_is_known(rows: Rows) -> None:
    redsea, third = Redsea(Decoder(lapses=True)), len(rows) // 3
    for begin, clock in ((0, Clock()), (third, Clock(0.0)), (2 * third, Clock())):
        found = redsea.lines(rows[begin : begin + third], clock)
        assert {',"rx_time":"1970-01-01T00:0' in line for line in found} == {clock.start is not None}


def test_the_text_of_a_group_is_made_once(rows: Rows, monkeypatch: Any) -> None:
    """While the items hold that it tells: a new RT has no effect on the segments that do not write it."""
    made: List[int] = []
    text_of = Redsea._text_of
    monkeypatch.setattr(Redsea, "_text_of", lambda self, group: made.append(group) or text_of(self, group))
    changes = len(Decoder(lapses=True).feed(rows))
    assert len(list(lines(rows, []))) > len(made) and len(made) <= len(set(made)) + 2 * changes


def test_lines_of_in_house_data_are_not_remembered() -> None:
    """They are seldom alike. Those of all other types are, and all of them are told if a block was corrected."""
    redsea = Redsea(Decoder(lapses=True))
    sent = [*name(b"NAME"), *(group(f"{kind}{version}", 0) for version in "AB" for kind in range(16))]
    found = redsea.lines(rows_of(2 * sent, [(10, Damage(4, CORRECTED))]), Clock())
    assert {words >> 44 & 0xF for words in redsea._written} == {*range(16)} - {6}
    assert ["in_house_data" in line for line in found[: len(sent)]] == [k in (10, 26) for k in range(36)]


def test_a_list_of_the_first_transmitter_that_changes_is_written() -> None:
    """By method B, after that of the second one."""
    pairs = [0xE312, 0x1278, 0xE30F, 0x0F4B] * 5 + [0xE312, 0x127D, 0xE30F, 0x0F4B] * 5
    found = lines(rows_of([group("0A", k % 4, pair, 0x2020) for k, pair in enumerate(pairs)]), [])
    assert '"tuned_frequency":89300,"same_programme":[100000]' in [*found][-1]


def test_a_text_that_is_whole_again_at_once_is_written() -> None:
    """Two turns tell how long it is. Signs after that end it, and all of it has come in this turn."""
    found = lines(rows_of([*name(b"NAME"), *6 * text(b"Hi.."), text(b"Hi..more")[1]]), [])
    assert ['"radiotext":"Hi.."' in line for line in found][4:] == 2 * [False] + 5 * [True]


@pytest.mark.parametrize(
    ("words", "key"),
    [
        (label(0, 0xE0), "country"),
        (label(1, 0x123), "tmc_id"),
        (label(3, 0x08), "language"),
        (group("1B", 0, 0, 1 << 11 | 16 << 6 | 30), "prog_item_started"),
    ],
    ids=["country", "tmc_id", "language", "pin"],
)
def test_a_group_before_its_item_counts(words: Any, key: str) -> None:
    """A corrected one tells no item at first, and the item that a valid one told since. One that is not whole tells its block 2."""
    sent = [*name(b"NAME") * 5, words, words, words, words]
    block = 4 if key == "prog_item_started" else 3
    damage = [
        (number, Damage(block, kind)) for number, kind in ((20, CORRECTED), (22, CORRECTED), (23, LOST))
    ]
    found = [*lines(rows_of(sent, damage), [])][-4:]
    assert [key in line for line in found] == [False, True, True, False]
    assert [*json.loads(found[3])] == ["pi", "group", "tp", "prog_type"]
