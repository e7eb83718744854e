"""From a receiver's bytes to packed bits, however the bytes are cut."""

from __future__ import annotations

import json
import random
from types import SimpleNamespace
from typing import Any, Dict, List, Tuple

import numpy
import pytest

from conftest import encode, rds
from modulator import iq, mpx, stored, words
from network import START, stations
from rds_monitor.rows.items import Fault
from rds_monitor.rows.decoders import decode, decoder_of
from rds_monitor.watch.bits import Lines, bit_source
from rds_monitor.watch.station import Station
from rds_monitor.watch.table import StationTable, table_of

GROUPS = words(5, 60)


def station(*lines: str) -> StationTable:
    return table_of(stations('name = "Alpha"', 'command = ["a"]', *lines)).stations[0]


def cut(data: bytes, seed: int) -> List[bytes]:
    """Pieces of any length, of a byte too."""
    chance, found, at = random.Random(seed), [], 0
    while at < len(data):
        size = chance.choice([1, 3, chance.randrange(1, 200000)])
        found.append(data[at : at + size])
        at += size
    return found


def right(bits: bytes) -> int:
    """How many of the groups are received as they were sent."""
    rows = decode(bits)[0]
    found = [tuple(int(row[f"info{block}"]) for block in (1, 2, 3, 4)) for row in rows[rows["what"] == 2]]
    return len([group for group in found if group in GROUPS])


def test_packed_bits_are_left_alone() -> None:
    source = bit_source(station())
    assert source.take(b"\x01\x02") == b"\x01\x02"
    assert source.finish() == b""
    assert source.delay == 0
    assert source.strength is None


FORMS: Dict[str, Tuple[str, ...]] = {
    "mpx s16": ('form = "mpx"', 'raw = "s16"', "rate = 171000"),
    "mpx f32": ('form = "mpx"', 'raw = "f32"', "rate = 192000"),
    "iq u8": ('form = "iq"', 'raw = "u8"', "rate = 240000"),
    "iq s16, far below the centre": ('form = "iq"', 'raw = "s16"', "rate = 480000", "offset = -150000"),
}


@pytest.mark.parametrize("name", FORMS)
def test_a_signal(name: str) -> None:
    one = station(*FORMS[name], "soft = false")
    assert one.rate is not None and one.raw is not None
    signal = mpx(encode(GROUPS), one.rate, snr=40)
    if one.form == "iq":
        data = stored(iq(signal, one.rate, cnr=40, offset=one.offset), one.raw, peak=1.5)
    else:
        data = stored(signal, one.raw)
    source = bit_source(one)
    assert right(b"".join([source.take(piece) for piece in cut(data, 3)]) + source.finish()) >= 50
    assert 0.5 < source.delay < 3 and source.strength is not None
    assert source.strength.snr_db is not None and source.strength.snr_db > 15


def test_the_last_bits_of_a_session() -> None:
    """Of a signal the receiver gives them once it has ended."""
    one, said = station(*FORMS["mpx s16"], "soft = false"), []
    data, source = stored(mpx(encode(GROUPS), 171000, snr=40), "s16"), bit_source(one)
    first = source.take(data)
    assert source.delay == pytest.approx(len(data) / 2 / 171000 - 8 * len(first) / 1187.5)
    bits = first + source.finish()
    keeper: Any = SimpleNamespace(read=lambda steady: data, starts=1, is_stopping=False)
    watched = Station(one, keeper, decoder_of()[0], 1000.0, 0.0, lambda *words: said.append(words))
    watched.poll(0.0, START)
    watched.end_session(START + 10)
    assert b"".join(append.data for append in watched.appends) == rds("list", data=bits) and said == []


@pytest.mark.parametrize("steps", [False, True])
def test_a_fault_of_the_last_bits_is_told(steps: bool) -> None:
    """Where a session ends, or the machine's clock is set."""

    def fail(data: bytes) -> bytes:
        raise Fault("no more")

    said: List[Tuple[str, ...]] = []
    keeper: Any = SimpleNamespace(read=lambda steady: bytes(400), starts=1, is_stopping=False)
    watched = Station(station(), keeper, decoder_of()[0], 1.0, 0.0, lambda *words: said.append(words))
    watched.poll(0.0, START)
    setattr(watched, "_bits", SimpleNamespace(take=fail))
    watched.step(5.0, START + 5) if steps else watched.end_session(START + 5)
    assert said == [("warning", f"{watched.name}: no more")]


def test_multipath_is_undone_if_the_table_says_so() -> None:
    """A second path of 30 µs; of a receiver's only station it is undone by default."""
    signal = iq(mpx(encode(GROUPS[:30]), 256000, snr=40), 256000, paths=[(30, 0.7, 90, 0)], cnr=30)
    found = []
    for more in ((), ("equaliser = false",)):
        hard = station('form = "iq"', 'raw = "s16"', "rate = 256000", "soft = false", *more)
        source = bit_source(hard)
        found.append(right(source.take(stored(signal, "s16")) + source.finish()))
    assert found[0] >= 24 > 10 >= found[1]


@pytest.mark.parametrize("name", FORMS)
def test_symbols_of_a_signal(name: str) -> None:
    """Their bits are those that a station without soft decisions has, and they come some 0.2 s later."""
    hard, soft = (station(*FORMS[name], *more) for more in (["soft = false"], []))
    assert hard.rate is not None and hard.raw is not None and not hard.same_receiver(soft)
    signal = mpx(encode(GROUPS), hard.rate, snr=10)
    data = stored(
        iq(signal, hard.rate, cnr=40, offset=hard.offset) if hard.form == "iq" else signal, hard.raw
    )
    found = []
    for one in (hard, soft):
        source = bit_source(one)
        found.append(b"".join([source.take(piece) for piece in cut(data, 3)]) + source.finish())
        assert 0.5 < source.delay < 3.3
    symbols = numpy.frombuffer(found[1], "i1")
    above = symbols > 0
    assert numpy.packbits(above[1:] != above[:-1])[: len(found[0])].tobytes() == found[0]
    assert len(symbols) - 8 * len(found[0]) in range(1, 9)


def test_lines_of_symbols() -> None:
    text = '[[receiver]]\nname = "r"\ncommand = ["r"]\nraw = "u8"\nrate = 3200000\ncentre = 97\n'
    one = table_of(text + stations('name = "A"', 'receiver = "r"', "frequency = 97.2")).stations[0]
    source = bit_source(one)
    told = [{"seconds": at, "symbols": "7f81" * 50, "level_dbfs": -20.0, "snr_db": 3.0} for at in (2.0, 2.5)]
    assert (
        one.soft
        and source.take("".join(f"{json.dumps(line)}\n" for line in told).encode()) == b"\x7f\x81" * 100
    )
    assert source.delay == pytest.approx(2.5 - 200 / 1187.5)


def test_lines_of_a_shared_receiver() -> None:
    """The first bits tell how late they are: 2.5 seconds were heard for 12 bytes of them. Strengths are means by power."""
    source = Lines()
    line = b'{"frequency":1,"seconds":%s,"bits":"%s","level_dbfs":%s,"snr_db":20.0}\n'
    assert source.take(line % (b"0.5", b"", b"-9.0")) == b"" and source.delay == 0 and source.strength is None
    bits = bytes(range(12))
    for seconds, level, mean in ((b"2.5", b"-20.0", -20.0), (b"9.5", b"3.0", 3.0)):
        assert source.take(line % (seconds, bits.hex().encode(), level)) == bits
        assert source.delay == pytest.approx(2.5 - 96 / 1187.5) and source.strength == (mean, 20.0)
    source.take(2 * (line % (b"9.5", b"00", b"0.0")) + line % (b"9.5", b"00", b"10.0"))
    assert source.strength is not None and source.strength.level_dbfs == 6.0
    for seconds, delay in ((b"0.3", 0.3 - 96 / 1187.5), (b"0.05", 0)):
        source = Lines()
        source.take(line % (seconds, bits.hex().encode(), b"0"))
        assert source.delay == pytest.approx(delay)


def test_what_is_no_signal() -> None:
    """A number that no signal has is a fault; a part of a sample at the end is none."""
    one = station('form = "mpx"', 'raw = "f32"', "rate = 192000")
    source = bit_source(one)
    assert source.take(bytes(43)) == b""
    with pytest.raises(Fault, match="sample 12 is inf: no signal has it"):
        source.take(b"\0" + b"\0\0\x80\x7f" * 1000)
    short = bit_source(one)
    assert short.take(b"\x00\x00\x00") == b"" and short.finish() == b""
