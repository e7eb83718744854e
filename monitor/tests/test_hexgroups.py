"""Groups as lines of hexadecimal words, out and in."""

from __future__ import annotations

import json
import re
from types import SimpleNamespace
from typing import Any, List

import numpy
import pytest
from hypothesis import given, settings, strategies as st

from conftest import STATION, encode, monitor
from rds_monitor.measures.groups import text_of
from rds_monitor.rows.group_lines import GroupLines
from rds_monitor.rows.heads import is_groups
from rds_monitor.rows.items import BLOCKS, GROUP, LOST, UNKNOWN_TYPE, VALID, VERSION_A, VERSION_B
from rds_monitor.rows.items import VERSION_UNKNOWN, Fault, Totals
from rds_monitor.rows.listing import groups_in
from made import listing, output as said, read as read_listing
from sent import group, name, text


def read(data: bytes) -> Any:
    """The source of lines, which come in pieces, and its rows."""
    pieces = (data[begin : begin + 101] for begin in range(0, len(data), 101))
    source = GroupLines(SimpleNamespace(read=lambda _: next(pieces, b"")), b"")
    assert source.length is source.totals is source.start is None
    return source, numpy.concatenate(list(source.chunks()))


# ---- out


def test_lines_are_the_words_of_the_listing(station_listing: bytes) -> None:
    rows = [row.split(",")[4:] for row in station_listing.decode().splitlines() if row.startswith("group,")]
    lines = [" ".join(word.partition(":")[2][:4] or "----" for word in row) for row in rows]
    assert said("groups", STATION).splitlines() == lines
    assert said("groups", data=station_listing).splitlines() == lines
    assert said("groups", "--whole", STATION).splitlines() == [line for line in lines if "-" not in line]


PARTIAL = "group,0,-,?,A:D318,lost,lost,none"
WHOLE = "group,104,0,A,A:D318,B:0548,C:E0CD,D:5041"
LINE = "D318 0548 E0CD 5041"


@pytest.mark.parametrize(
    "row,options,line",
    [
        (PARTIAL, "", "D318 ---- ---- ----\n"),
        (PARTIAL, "--whole", ""),
        (WHOLE.replace("D318", "D318~0000001"), "", f"{LINE}\n"),
        (WHOLE, "--times", f"{LINE} 0.088\n"),
        (WHOLE, "--times --start 2026-03-29T00:30:00Z", f"{LINE} 2026-03-29T00:30:00.088Z\n"),
        (WHOLE, "--whole --times --start 2026-03-29T00:30:00Z", f"{LINE} 2026-03-29T00:30:00.088Z\n"),
        (WHOLE, "--spy --start 2026-03-29T23:59:59.9512Z", f"{LINE} @2026/03/30 00:00:00.03\n"),
        (WHOLE, "--spy --start 2026-03-29T23:59:59.952Z", f"{LINE} @2026/03/30 00:00:00.04\n"),
    ],
)
def test_lines_of_a_row(row: str, options: str, line: str) -> None:
    assert said("groups", "--unfinished", *options.split(), data=f"{row}\n".encode()) == line


def test_spy_needs_a_start() -> None:
    done = monitor("groups", "--spy", STATION)
    assert done.returncode == 2 and b"--start" in done.stderr and done.stdout == b""


# ---- in

SPY = b"""<recorder="RDS Spy" date="2026-03-29">\r
D318 0548 E0CD 5041 @2026/03/29 00:30:00.09\r
D318 0549 ---- 584F @2026/03/29 00:30:00.17\r
---- ---- E0CD ---- @2026/03/29 00:30:00.26\r
\r
D318 054B E0CD 3138 @2026/03/29 00:31:40.00\r
"""


def test_a_log_of_rds_spy() -> None:
    source, rows = read(SPY)
    groups = rows[rows["what"] == GROUP]
    assert [[groups[f"kind{k}"][n] for k in BLOCKS] for n in range(4)] == [
        *([VALID] * 4, [VALID, VALID, LOST, VALID]),
        *([LOST, LOST, VALID, LOST], [VALID] * 4),
    ]
    last = round(99.91 * 1187.5)
    assert groups["info1"].tolist() == [0xD318, 0xD318, 0, 0xD318]
    assert rows["number"].tolist() == [1, 0, 0, 255, 0, 1, 0] and groups["place"].tolist() == [
        0,
        104,
        208,
        last,
    ]
    assert rows["place"].tolist() == [25, 0, 104, 208, 311, last + 25, last]
    assert rows["what"].tolist() == [1, 2, 2, 2, 3, 1, 2]
    assert (source.start, source.length) == (1774744200.09, last + 104)
    assert source.totals == Totals(12, (0,) * 5, 4, 0, groups=4, complete=2, acquired=2, losses=1)
    assert (read_listing(listing([rows])) == rows).all()


@pytest.mark.parametrize(
    "line, number, version, offset",
    [
        ("0000 0000 0000 1234", 0, VERSION_A, 3),
        ("D318 F800 D318 1234", 15, VERSION_B, 4),
        ("---- 0800 ---- ----", 0, VERSION_B, 0),
        ("D318 ---- 0000 1234", UNKNOWN_TYPE, VERSION_A, 3),
        ("0000 ---- 0000 1234", UNKNOWN_TYPE, VERSION_B, 4),
        ("D318 ---- ---- 1234", UNKNOWN_TYPE, VERSION_UNKNOWN, 0),
    ],
)
def test_types_of_lines(line: str, number: int, version: int, offset: int) -> None:
    """By the bits of block 2, or by whether block 3 is the PI again, with offset C' (IEC 62106, clause 3.1.3)."""
    _, rows = read(line.encode())
    assert [rows[name][1] for name in ("number", "version", "offset3")] == [number, version, offset]


@pytest.mark.parametrize("late, losses", [(1.2, 0), (1.4, 1)])
def test_times_that_are_late(late: float, losses: int) -> None:
    """A computer that is late writes a time up to 1.25 s after the group. The last line needs no end."""
    first, time = "D318 0548 E0CD 5041 @2026-03-29 00:30:00\n", late + 0.0876
    source, rows = read(f"{first}D318 0549 E0CD 584F @2026-03-29 00:30:0{time:.2f}".encode())
    assert source.totals[:8] == (8, (0,) * 5, 0, 0, 2, 2, 1 + losses, losses) and len(rows) == 3 + 2 * losses


def test_a_log_gives_times() -> None:
    found = [json.loads(line) for line in said("json", data=SPY).splitlines()]
    assert found[0]["item"] == "pi" and found[0]["time_utc"] == "2026-03-29T00:30:00.090Z"
    assert found[-1]["time_utc"][:19] == "2026-03-29T00:31:40"


FORMS = (
    *(LINE, LINE.lower(), LINE.replace(" ", ""), f"{LINE} @2026/03/29 00:30:00", " D318\t0548 E0CD  5041 "),
    *(f"{LINE} 2026-03-29T00:30:00", "G:\nD3180548E0CD5041", f"{LINE} @9990/12/31 23:59:59"),
)


@pytest.mark.parametrize("line", FORMS)
def test_forms_of_a_line(line: str) -> None:
    _, rows = read(line.encode() + b"\n")
    assert text_of(groups_in(rows))[:20] == LINE.encode() + b"\n"


OTHER_LINES = """
D318 0548 E0CD
D318 0548 E0CD 504
D318 0548 E0CD 50411
D318 0548 E0CD 50G1
D318 0548 E0CD --41
D318 0548 E0CD 5041 @yesterday
group,0,0,A,A:D318,B:0548,C:E0CD,D:5041
D318 0548 E0CD 5041x
D318 0548 E0CD 5041 @2026/13/29 00:30:00
D318 0548 E0CD 5041 @9991/01/01 00:00:00
"""


@pytest.mark.parametrize("line", OTHER_LINES.strip().splitlines())
def test_other_lines_are_refused_by_their_number(line: str) -> None:
    with pytest.raises(Fault, match="^line 3"):
        read(f"{LINE}\n\n{line}\n".encode())


def test_told_apart_from_recordings_and_listings(station_listing: bytes) -> None:
    """By its first three lines, but the last if that has no end."""
    line = LINE.encode() + b"\n"
    for head in (STATION.read_bytes()[:4096], station_listing[:4096], b"", b"\n\n", b"D3180548E0CD5041\n"):
        assert not is_groups(head)
    assert not is_groups(line + b"none\nD3") and not is_groups(2 * line + b"none\n")
    assert all(map(is_groups, (SPY, line[:-1], line, line + b"D3", 3 * line + b"none\n")))


def test_every_command_reads_lines() -> None:
    groups = name(b"PAXO 318") + text(b"A text\r")
    lines = "".join("%04X %04X %04X %04X\n" % word for word in groups).encode()
    assert {"PAXO 318", "A text"} <= {*re.split("  +| *\\(|\n", said("info", data=lines))}
    assert said("groups", data=lines).encode() == lines
    columns = "begin_s end_s sent valid corrected lost no_sync bad_percent"
    assert said("errors", data=lines).split()[0] == columns.replace(" ", ",")

    def contents(data: bytes) -> List[Any]:
        entries = map(json.loads, said("json", data=data).splitlines())
        told = [(entry["item"], entry["value"]) for entry in entries if entry["event"] == "content"]
        return [pair for pair in told if pair[0] != "ih"]

    assert contents(encode([group("6A", 0), *groups])) == contents(lines)


WORD = st.one_of(st.none(), st.integers(0, 0xFFFF))


@settings(max_examples=100, deadline=None)
@given(st.lists(st.tuples(WORD, WORD, WORD, WORD), max_size=20))
def test_lines_that_are_read_are_written_the_same(words: List[Any]) -> None:
    texts = [["----" if entry is None else f"{entry:04X}" for entry in word] for word in words]
    lines = "".join(" ".join(text) + "\n" for text in texts).encode()
    source, rows = read(lines)
    assert text_of(groups_in(rows)) == lines
    assert source.length == 104 * len(words) and source.totals.groups == len(words)


@settings(max_examples=100, deadline=None)
@given(st.binary(max_size=80))
def test_any_bytes_are_read_or_refused(data: bytes) -> None:
    try:
        read(data)
    except Fault as fault:
        assert str(fault).startswith("line ")
