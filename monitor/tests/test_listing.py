"""The reader of listings: what it accepts it would write again in the same bytes, and all else it refuses with the
row."""

from __future__ import annotations

import gzip
import io
import itertools
import lzma
import sys
import zlib
from collections import defaultdict
from types import SimpleNamespace
from typing import Any, List, Optional
from unittest import mock

import numpy
import pytest
import zstandard
from hypothesis import HealthCheck, given, settings, strategies as st

from conftest import COMMAND, STATION, encode, ran, rds
from made import acquired_row, block, damaged, group_row, joined, listing, lock, loss_row, read, run, said
from rds_monitor.rows import extent, listing as of_listing, opening, recording
from rds_monitor.rows.heads import HEADER, is_known, is_listing
from rds_monitor.rows.items import BLOCKS, GROUP, VALID, Fault, Reading, Rows, Rules, totals_of
from rds_monitor.rows.listing import Listing, text_of, totals_text
from rds_monitor.rows.opening import open_source
from rds_monitor.rows.parse import set_types

WORDS = (0xD393, 0x0548, 0xE0CD, 0x5041)


def written(source: Any) -> bytes:
    """The rows of a source and its totals, as text."""
    return text_of(joined(source.chunks())) + (totals_text(source.totals) if source.totals else b"")


def source_of(text: bytes, **options: Any) -> Listing:
    return Listing(io.BytesIO(text), b"", Reading(**options))


def refused(text: bytes, **options: object) -> str:
    with pytest.raises(Fault) as error:
        read(text, **options)
    return str(error.value)


# ---- what rds writes


@pytest.fixture(scope="module")
def noisy(station: bytes) -> bytes:
    """The station, damaged, noise, and the station again."""
    return damaged(station, 0.02, 1) + numpy.random.default_rng(1).bytes(20000) + station


OPTIONS = ("", "--burst 5 --reach 8 --loss 1", "--burst 5 --reach 8 --loss 64", "--burst 0 --share 3 --of 5")


@pytest.mark.parametrize("options", OPTIONS)
def test_a_listing_is_read_and_written_again(noisy: bytes, options: str) -> None:
    text = rds("list", *options.split(), data=noisy)
    assert written(source_of(text)) == text


@pytest.mark.usefixtures("decoder")
@pytest.mark.parametrize(
    "options, rules",
    [("", Rules()), ("--burst 5 --reach 8 --loss 64", Rules(5, 8, 64))],
    ids=["usual", "wide"],
)
def test_a_recording_and_its_listing_are_the_same_rows(
    options: str, rules: Rules, noisy: bytes, tmp_path
) -> None:
    path = tmp_path / "noisy.bin"
    path.write_bytes(noisy)
    text = rds("list", *options.split(), data=noisy)
    source = open_source(str(path), Reading(rules))
    assert written(source) == text
    assert source.length == 8 * len(noisy) and source.totals == totals_of(read(text))


@pytest.mark.parametrize("size", [1, 7, 1000])
def test_the_cut_of_reads_changes_nothing(station_listing: bytes, size: int, monkeypatch) -> None:
    monkeypatch.setattr(of_listing, "LINES", size)
    # Smaller parts take longer: of 1 and of 7 lines there are some seventy.
    text = station_listing[: 3000 * size]
    whole = read(text, unfinished_ok=True)
    monkeypatch.undo()
    assert (whole == read(text, unfinished_ok=True)).all()


@pytest.mark.usefixtures("decoder")
def test_bits_gaps_and_hexadecimal_text(station: bytes, tmp_path) -> None:
    path = tmp_path / "it.hex"
    path.write_text(station.hex(" ", 7) + "\n")
    gaps = [(104, 105), (50000, 50300)]
    # The last bit is inside a byte, its first one, its last one, or the last of all.
    for bits in (100003, 100001, 100000, 8 * len(station), 50400):
        wanted = rds("list", "--bits", bits, "--gaps", "104-105,50000-50300", data=station)
        assert written(open_source(str(path), Reading(hex=True, bits=bits, gaps=gaps))) == wanted
    assert written(open_source(str(path), Reading(hex=True, bits=0))) == rds("list")
    for text, options, fault in (
        (station.hex(), {"bits": 300000}, "BitsPastBytes"),
        (
            station.hex(),
            {"gaps": [(0, 5), (6, 300000)]},
            "BadGaps: a gap ends at 300000, past the 200000 bits",
        ),
        (station.hex(), {"rules": Rules(6)}, "BurstRange"),
        ("123", {}, "refused 11 HexText"),
        ("12 3x", {}, "refused 11 HexText"),
    ):
        path.write_text(text)
        with pytest.raises(Fault, match=fault):
            list(open_source(str(path), Reading(hex=True, **options)).chunks())


@pytest.mark.usefixtures("decoder")
@pytest.mark.parametrize("is_hex", [False, True])
def test_a_recording_in_small_chunks(is_hex: bool, station: bytes, tmp_path, monkeypatch) -> None:
    """Its last bit is in a later chunk, some chunks have an odd number of digits, and a gap ends with it."""
    monkeypatch.setattr(opening, "CHUNK", 4096)
    monkeypatch.setattr(recording, "CHUNK", 997)
    (tmp_path / "it").write_bytes(station.hex().encode() if is_hex else station)
    how = Reading(hex=is_hex, bits=100003, gaps=[(104, 105), (99000, 100003)])
    wanted = rds("list", "--bits", 100003, "--gaps", "104-105,99000-100003", data=station)
    assert written(open_source(str(tmp_path / "it"), how)) == wanted


# ---- other hands


def test_windows_lines_a_mark_and_names_of_columns_are_read_right(station_listing: bytes) -> None:
    whole, windows = read(station_listing), station_listing.replace(b"\n", b"\r\n")
    for text in (windows, HEADER + b"\n" + station_listing, HEADER + b"\r\n" + windows):
        for form in (text, text[:-1], b"\xef\xbb\xbf" + text):
            assert (read(form) == whole).all()


# Rows, and the fault of each; \\r and \\n are the ends of lines.
BAD_ROWS = r"""
group,x,0,A,A:D393,B:0548,C:E0CD,D:5041               row 1: its second field is no place: 'group,x,
group,007,0,A,A:D393,B:0548,C:E0CD,D:5041             no place
group,-1,0,A,A:D393,B:0548,C:E0CD,D:5041              no place
group,68719476736,0,A,A:D393,B:0548,C:E0CD,D:5041     no place
group,,0,A,A:D393,B:0548,C:E0CD,D:5041                no place
group,26,0,A,A:D39G,B:0548,C:E0CD,D:5041              its block 1 is no block
group,26,0,A,A:000G,B:0548,C:E0CD,D:5041              its block 1 is no block
group,26,0,A,A:d393,B:0548,C:E0CD,D:5041              its block 1 is no block
group,26,0,A,A:D393,A:0548,C:E0CD,D:5041              its block 2 is no block
group,26,0,A,A:D393,B:0548,C:E0CD~0000000,D:5041      its block 3 is no block
group,26,0,A,A:D393,B:0548,C:E0CD~4000000,D:5041      its block 3 is no block
group,26,0,A,A:D393,B:0548,C:E0CD~000000x,D:5041      its block 3 is no block
group,26,0,A,A:D393,B:0548,C:E0CD~000800x,D:5041      its block 3 is no block
group,26,0,A,A:D393,B:0548,C:E0CD~0x08000,D:5041      its block 3 is no block
group,26,0,A,A:D393,B:0548,C:E0CD~000l000,D:5041      its block 3 is no block
group,26,0,A,A:D393,B:0548,none,D:5041                not in a row
group,26,-,?,none,none,none,none                      not in a row
group,26,1,A,A:D393,B:0548,C:E0CD,D:5041              type and version
group,26,0,B,A:D393,B:0548,C:E0CD,D:5041              type and version
group,26,0,A!,A:D393,B:0548,C:E0CD,D:5041             type and version
group,26,0,A,A:D393,B:0548,C:E0CD                     it has 7 fields in place of 8
group,26,0,A,A:D393,B:0548,C:E0CD,D:5041,             it has 9 fields in place of 8
group,26,0,A,A:D393,B:0548,C:E0CD,D:5041\x20          its block 4 is no block
group;26;0;A;A:D393;B:0548;C:E0CD;D:5041              it has 1 fields
"group","26","0","A","A:D393","B:0548","C:E0CD","D:5041" it begins with none
acquired,26,5,-,-,-,-,-                               no row of an acquisition
acquired,26,0,-,-,-,-,-                               no row of an acquisition
acquired,24,1,-,-,-,-,-                               no row of an acquisition
acquired,26,1,-,-,-,-,x                               no row of an acquisition
lost,26,-,-,-,-,-,1                                   no row of a loss
total,valid,07,-,-,-,-,-                              no row of a total
total,groups,0,-,-,-,-,-                              the total 'valid' is missing before it
begin_s,end_s,sent,valid,corrected,lost,no_sync,bad_percent begins with none
acquired,51,1,-,-,-,-,-\r\r                           no row of an acquisition
"""
ROWS = [line.split(maxsplit=1) for line in BAD_ROWS.strip().splitlines()] + [["", "it has 1 fields"]]


@pytest.mark.parametrize("row, reason", ROWS)
def test_rows_that_are_none(row: str, reason: str) -> None:
    text = row.encode().decode("unicode_escape").encode() + b"\n"
    assert reason in refused(text, unfinished_ok=True)
    rows = listing(lock(26, [WORDS] * 40, lost=False), totals=False)
    said = refused(rows + text.replace(b",26,", b",4186,"), unfinished_ok=True)
    assert said.startswith("row 42: ")


@pytest.mark.parametrize("size", [1000, 1 << 19])
def test_the_first_bad_row_is_told(size: int, station_listing: bytes, monkeypatch) -> None:
    monkeypatch.setattr(of_listing, "LINES", size)
    lines = station_listing.split(b"\n")
    lines[500] = lines[500].replace(b",A:", b",A;")
    lines[900] = b"lost"
    assert refused(b"\n".join(lines)).startswith("row 501: its block 1")
    assert refused(b"\n".join([HEADER, *lines])).startswith("row 502: its block 1")


def test_the_first_eighty_signs_of_a_bad_row_are_told(station_listing: bytes) -> None:
    row = "lost," + "".join(chr(33 + k) for k in range(90))
    assert refused(station_listing[:4000].rpartition(b"\n")[0] + f"\n{row}\n".encode()).endswith(
        f": {row[:80]!r}"
    )


# Beginnings of inputs, with the fault of each.
NO_INPUTS = {
    "group,1".encode("utf-16"): "UTF-16",
    b"%060d,end_s\n0,60,1,1\n" % 7: f"row 1: '{7:060}' is no row",
    b"12345678 9ABCDE\n": "hexadecimal text: use --hex",
    b"": "the input is empty",
}


@pytest.mark.parametrize("head", NO_INPUTS)
def test_inputs_that_are_none(head: bytes, tmp_path) -> None:
    (tmp_path / "it").write_bytes(head)
    with pytest.raises(Fault, match=NO_INPUTS[head]):
        open_source(str(tmp_path / "it"))


def test_bits_like_those_of_a_listing_in_utf_16() -> None:
    """The bits of a recording may begin with its mark, or have its first word."""
    for mark, word in ((b"\xff\xfe", b"groups"), (b"\xfe\xff", b"groups"), (b"\xff\xff", b"g\0r\0o\0u\0p\0")):
        assert not is_listing(mark + word + bytes(range(256)))
    assert not is_listing(b"12345678 9ABCD\n")


@pytest.mark.parametrize(
    "head", [bytes(6), b"3456789ABCDEF01\n123456789ABCDEF0\n", b"<%63s" % b"\n", b"G\n%62s" % b""]
)
def test_beginnings_that_say_what_an_input_is(head: bytes) -> None:
    """None of them does without its last byte, so that no more of a pipe is waited for."""
    assert [is_known(head[:size]) for size in range(len(head) + 1)] == [*len(head) * [False], True]


def test_a_row_without_an_end() -> None:
    for size in (4097, 10**6):
        assert "a row has no end within 4096 bytes" in refused(b"0" * size, unfinished_ok=True)
    assert not len(read(b"0" * 4096, unfinished_ok=True))


def test_a_file_that_cannot_be_read(tmp_path) -> None:
    for path in (tmp_path / "none", tmp_path):
        with pytest.raises(Fault, match="cannot be read"):
            list(open_source(str(path)).chunks())


# ---- what follows what


def test_a_second_listing_is_named(station_listing: bytes) -> None:
    number, second = station_listing.count(b"\n") + 1, "a second listing begins here"
    rows = station_listing[: station_listing.index(b"total,")]
    assert refused(station_listing * 2).startswith(f"row {number}: {second}")
    part = refused(rows + station_listing, unfinished_ok=True)
    assert part.startswith(f"row {number - 12}: {second}")
    assert second in refused(station_listing + HEADER + b"\n" + station_listing)
    assert second in refused(listing([]) * 2)
    # A restart whose places are above those before.
    assert second in refused(listing(lock(26, [WORDS], False) + lock(500, [WORDS])), unfinished_ok=True)


def test_sessions_are_told_apart(station_listing: bytes) -> None:
    rows, whole = station_listing[: station_listing.index(b"total,")], read(station_listing)
    for text, count in ((station_listing * 3, 3), (rows + rows + station_listing, 3), (rows * 2, 2)):
        source, found = source_of(text, sessions=True, unfinished_ok=True), defaultdict(list)
        for chunk in source.chunks():
            found[source.session].append(chunk)
        assert sorted(found) == [*range(count)]
        assert all((joined(chunks) == whole).all() for chunks in found.values())
    with pytest.raises(Fault, match="does not end in its totals"):
        list(source_of(rows * 2, sessions=True).chunks())
    third = listing(3 * lock(26, [WORDS] * 2, lost=False) + [group_row(26, WORDS)], False)
    assert refused(third, sessions=True, unfinished_ok=True).startswith("row 10: its place goes back")


def test_places_that_go_back() -> None:
    rows = [group_row(104 * n, WORDS) for n in (0, 1, 2, 1)]
    assert refused(listing(rows, False), unfinished_ok=True).startswith("row 4: its place goes back")
    overlapping = [group_row(place, WORDS) for place in (0, 104, 207)]
    assert refused(listing(overlapping, False), unfinished_ok=True).startswith("row 3: its place goes back")
    # The type of the group before, 1, is no number of a block that acquired.
    back = [acquired_row(51, 1), *(group_row(place, (0xD393, 0x1548, 0, 0)) for place in (26, 1))]
    assert refused(listing(back)).startswith("row 3: its place goes back")
    # Sync begins with the last bit of a block: a group begins at most 25 bits before.
    early = [acquired_row(51, 1), group_row(25, WORDS)]
    assert refused(listing(early, False), unfinished_ok=True).startswith("row 2: its place goes back")


@pytest.mark.parametrize("gone", [0, 1, 2, 52, 60, -2, -1])
def test_a_row_that_is_missing(gone: int) -> None:
    rows = lock(26, [WORDS] * 50) + lock(8000, [WORDS] * 50)
    whole = listing(rows)
    del rows[gone]
    text = text_of(numpy.concatenate(rows)) + whole[whole.index(b"total,") :]
    fault = refused(text)
    assert "rows are missing" in fault and "(--unfinished accepts a part)" in fault
    assert gone == -1 or fault.startswith(f"row {gone % 104 + 1}: ")
    # In a part rows may be missing, and it goes on.
    assert len(read(text, unfinished_ok=True)) == len(rows)


def test_a_row_too_many() -> None:
    text, other = (listing(lock(26, [WORDS] * count, lost=False)) for count in (5, 4))
    both = text[: text.index(b"total,")] + other[other.index(b"total,") :]
    fault = "the total 'valid' is 16, but the rows have 20: rows are missing or too many"
    assert refused(both, unfinished_ok=True) == fault


def test_a_listing_without_totals(station_listing: bytes) -> None:
    for end in (1, 20, 5000, station_listing.index(b"total,"), len(station_listing) - 4):
        text = station_listing[:end]
        assert "cut off" in refused(text)
        kept = text[: text.rfind(b"\n") + 1]
        assert (read(text, unfinished_ok=True) == read(kept, unfinished_ok=True)).all()


def test_the_length_of_the_recording(station_listing: bytes) -> None:
    assert len(read(station_listing, length=200000)) == 1924
    assert "past the 199888 bits" in refused(station_listing, length=199888)
    assert "the length is wrong" in refused(station_listing, length=1600000)
    assert len(read(station_listing, length=1600000, trust_length=True)) == 1924
    # A minute of 71,250 bits, and a tenth of the 520 bits with rows, are not too long yet.
    few = listing(lock(0, [(0xD318, 0x0548, 0xE0CD, 0x4E4F)] * 5, lost=False))
    assert len(read(few, length=71250 + 572)) == 6 and "is wrong" in refused(few, length=71250 + 573)
    assert not len(read(listing([]), length=10**6))
    assert len(read(few, length=520)) == 6 and "a row is of bit 519, past the 519" in refused(few, length=519)


def test_the_last_bit_that_a_listing_may_have() -> None:
    last, past = (listing([group_row(2**36 - bits, WORDS)], False) for bits in (104, 103))
    assert len(read(last, unfinished_ok=True)) == 1
    assert f"a row is of bit {2**36}, past the 2^36 bits" in refused(past, unfinished_ok=True)


def test_the_extent_of_a_listing_and_of_a_part() -> None:
    """A part begins with its first block."""
    rows = lock(26, [WORDS] * 3)
    for part, begin in ((False, 0), (True, 26)):
        found = extent.Extent(source_of(listing(rows, totals=not part), unfinished_ok=part))
        assert sum(map(len, found.chunks())) == 5
        assert (found.begin, found.end, found.is_soft) == (begin, 26 + 3 * 104, False)


HOURS = "4018.68 h;6028.02 h;8037.37 h;10046.71 h;12056.05 h;14065.39 h;16074.73 h"


@pytest.mark.parametrize(
    "length, bits, texts",
    [(16000, 1000, "25 %;38 %;50 %;62 %;75 %;88 %;100 %"), (None, 2**32, HOURS)],
)
def test_progress_is_told_twice_a_second(
    length: Optional[int], bits: int, texts: str, monkeypatch: pytest.MonkeyPatch
) -> None:
    """From the first second on, where a quarter of one passes with each look at the clock. At the end the line is erased."""
    shown, clock = [], itertools.count(0, 0.25)
    monkeypatch.setattr(sys, "stderr", mock.Mock(isatty=lambda: True, write=shown.append))
    monkeypatch.setattr(extent, "time", mock.Mock(monotonic=lambda: next(clock)))
    progress = extent.Progress(length)
    for number in range(1, 17):
        progress.at(bits * number)
    progress.close()
    last = len(texts.split(";")[-1])
    assert shown == [*(f"\r{text}" for text in texts.split(";")), f"\r{'':{last}}\r"]


# ---- random listings


@st.composite
def locks(draw) -> List[Rows]:
    """Rows of random locks: any blocks, corrected, uncorrectable or not read."""
    rows, place = [], draw(st.integers(25, 2**35))
    for _ in range(draw(st.integers(0, 4))):
        # The block that acquires may end with the first bit after a loss.
        place += draw(st.sampled_from([-25, 0, 300]))
        first = draw(st.integers(1, 4))
        rows.append(acquired_row(place + 25, first))
        for _ in range(draw(st.integers(1, 5))):
            last = draw(st.sampled_from([4, 4, 4, 4, first]))
            rows.append(random_group(draw, place, first, max(first, last)))
            place += 26 * (max(first, last) - first + 1)
            first = 1
            if last != 4:
                break
        rows.append(loss_row(place - 1))
    return rows


def random_group(draw, place: int, first: int, last: int) -> Rows:
    rows = group_row(place, ())
    for number in range(first, last + 1):
        word: Optional[int] = draw(st.one_of(st.none(), st.integers(0, 65535)))
        length = draw(st.integers(0, 5))
        shift = draw(st.integers(0, 26 - length)) if length else 0
        block(rows[0], number, word, (0, 1, 3, 5, 9, 17)[length] << shift)
    if rows["kind3"][0] >= VALID and draw(st.booleans()):
        rows["offset3"] = 4
    set_types(rows)
    return rows


@settings(max_examples=120, deadline=None)
@given(locks())
def test_random_listings_are_read_as_they_were_written(rows: List[Rows]) -> None:
    whole, text = joined(rows), listing(rows)
    assert (read(text) == whole).all()
    source = source_of(text)
    assert written(source) == text
    blocks = sum(int((whole[f"kind{number}"] > 0).sum()) for number in BLOCKS)
    assert sum(source.totals.bursts) + source.totals.valid + source.totals.lost == blocks


BYTES = st.sampled_from(b"0123456789ABCDEFabx:~,-!?\r\n gl\0\xff")


SLOW = [HealthCheck.filter_too_much, HealthCheck.too_slow]


@settings(max_examples=400, deadline=None, suppress_health_check=SLOW)
@given(st.data())
def test_damage_is_refused_or_read_as_it_stands(data) -> None:
    text = bytearray(data.draw(st.sampled_from(DAMAGED)))
    for _ in range(data.draw(st.integers(1, 3))):
        at = data.draw(st.integers(0, len(text) - 1))
        way = data.draw(st.sampled_from("change insert delete line swap double".split()))
        damage(text, at, way, data.draw(BYTES))
    for part in (False, True):
        try:
            again = written(source_of(bytes(text), unfinished_ok=part))
        except Fault:
            continue
        plain = bytes(text).removeprefix(HEADER + b"\n").replace(b"\r\n", b"\n")
        if part:
            # What is cut off is no row, and totals may be cut off too.
            assert plain.startswith(again) or again.startswith(plain)
            rest = plain[len(again) :]
            assert b"\n" not in rest.replace(b"total,", b"", 12) or rest.startswith(b"total,")
        else:
            assert again == plain or again == plain + b"\n"


def damage(text: bytearray, at: int, way: str, byte: int) -> None:
    begin = text.rfind(b"\n", 0, at) + 1
    end = text.find(b"\n", at) + 1 or len(text)
    after = text.find(b"\n", end) + 1 or len(text)
    line, following = text[begin:end], text[end:after]
    for name, first, last, new in (
        ("change", at, at + 1, bytes([byte])),
        ("insert", at, at, bytes([byte])),
        ("delete", at, at + 1, b""),
        ("line", begin, end, b""),
        ("double", begin, end, 2 * line),
        ("swap", begin, after, following + line),
    ):
        if way == name:
            text[first:last] = new
    text[:] = text or b"\n"


def _damaged() -> List[bytes]:
    random = numpy.random.default_rng(2)
    rows, place = [], 26
    for count in (3, 1, 6):
        rows += lock(place, random.integers(0, 65536, (count, 4)).tolist())
        place += 104 * count + 700
    groups = encode(random.integers(0, 65536, (12, 4)).tolist())
    return [listing(rows), rds("list", "--burst", 5, data=damaged(groups, 0.02, 2))]


DAMAGED = _damaged()


def test_a_long_listing_is_read_in_chunks(station: bytes) -> None:
    rows = read(rds("list", data=station))
    many = numpy.tile(rows[rows["what"] == GROUP][1:1001], 40)
    many["place"] = 104 * numpy.arange(len(many)) + 104
    assert all((many[f"kind{number}"] == VALID).all() for number in BLOCKS)
    sizes = [len(chunk) for chunk in source_of(listing([acquired_row(129, 1), many])).chunks()]
    assert max(sizes) <= 65536 and sum(sizes) == 40001 and len(sizes) > 2


def test_a_part_in_chunks_begins_with_the_first() -> None:
    """And it ends with the last one. Chunks without rows count for nothing."""
    chunks = [joined([]), group_row(129, WORDS), joined([]), group_row(233, WORDS)]
    source: Any = SimpleNamespace(chunks=lambda: chunks, is_part=True, length=None)
    part = extent.Extent(source)
    assert [len(rows) for rows in part.chunks()] == [1, 1] and (part.begin, part.end) == (129, 337)


# ---- compressed inputs


def test_a_file_without_standard_input(station: bytes) -> None:
    done = ran(["sh", "-c", '"$@" <&-', "sh", *COMMAND, "errors", STATION])
    assert done.returncode == 0 and done.stdout.splitlines() == said("errors", data=station)


COMPRESSED = {
    "gzip": gzip.compress,
    "xz": lzma.compress,
    "zstd": lambda data: zstandard.ZstdCompressor().compress(data),
}


@pytest.mark.parametrize("name", COMPRESSED)
def test_compressed_inputs_are_read(name: str, station: bytes, station_listing: bytes) -> None:
    compress = COMPRESSED[name]
    for data in (station + bytes(300_000), station_listing):
        expected = said("errors", data=data)
        assert said("errors", data=compress(data)) == expected
        # Several streams in a row are one, as `cat` makes them.
        assert said("errors", data=compress(data[:999]) + compress(data[999:])) == expected
        # The streams of a file are of one form.
        mixed = compress(data[:999]) + zlib.compress(data[999:])
        faults = {
            compress(data)[:-9]: "ends early",
            compress(data)[:99] + bytes(999): "",
            mixed: "is damaged",
        }
        for wrong, fault in faults.items():
            done = run("errors", data=wrong)
            assert done.status == 1 and f"the {name} data" in done.err and fault in done.err


def test_zstd_without_its_module_is_said(station: bytes) -> None:
    with mock.patch.dict(sys.modules, {"zstandard": None}):
        done = run("errors", data=COMPRESSED["zstd"](station))
    assert done.status == 1 and "python3-zstandard" in done.err
