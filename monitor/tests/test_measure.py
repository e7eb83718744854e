"""Tables: what was sent and received by interval, outages, PI codes, group types and corrected blocks."""

from __future__ import annotations

import importlib.util
import math
import sys
from collections import Counter
from types import SimpleNamespace
from typing import Iterator, List, Tuple

import numpy
import pytest
from hypothesis import given, settings, strategies as st

from conftest import rds
from made import BLOCK_OFFSETS, acquired_row, block, damaged, group_row, listing, lock
from made import output, read, run, said
from rds_monitor.measures.errors import Errors
from rds_monitor.measures.measure import Programmes
from rds_monitor.measures.outages import Outages
from rds_monitor.measures.table import columns_of
from rds_monitor.rows.clock import Clock
from rds_monitor.rows.items import CORRECTED, GROUP, ITEM, LOST, VALID, Rows
from rds_monitor.rows.parse import set_types

WORDS = (0xD393, 0x0548, 0xE0CD, 0x5041)
AT = "--start 2026-03-29T00:30:00Z"
START = AT.split()
COMMANDS = ["errors", "outages", "programmes", "types", "corrected", "table"]


@pytest.fixture(scope="module")
def two() -> bytes:
    corrected = group_row(104, WORDS)
    block(corrected[0], 4, 0x5041, 1)
    other = group_row(208, (0xD393, 0x0549, 0xE0CD, 0x584F))
    return listing([acquired_row(129, 1), corrected, other], totals=False)


@pytest.fixture(scope="module")
def outages() -> bytes:
    """Valid groups, but for these that are left out, and one alone in the longest gap."""
    gone = {*range(100, 105), *range(300, 320), *range(900, 1200), *range(1201, 1500), *range(1990, 2000)}
    return listing([group_row(104 * n, WORDS) for n in range(2000) if n not in gone], totals=False)


# ---- tables with their times

CLOCK_OFF = "--rate 1200 --start 2026-03-29T00:30:00.5Z"
# The words of a command over the two groups, and the rows after the names of the columns.
TABLES = {
    f"errors {AT} --every 1 --length 2375": """
begin_s,end_s,sent,valid,corrected,lost,no_sync,bad_percent,begin_utc,end_utc
0,1,41,7,1,0,33,82.93,2026-03-29T00:30:00.088Z,2026-03-29T00:30:01.000Z
1,2,46,0,0,0,46,100.00,2026-03-29T00:30:01.000Z,2026-03-29T00:30:02.000Z""",
    f"corrected {AT} --rate 1187.5": """
bit,type,version,block,offset,word,burst,burst_length,time_s,time_utc
104,0,A,4,D,5041,0000001,1,0.153,2026-03-29T00:30:00.153Z""",
    f"programmes {CLOCK_OFF} --least 2": """
begin_s,end_s,pi,groups,begin_bit,end_bit,begin_utc,end_utc
0.087,0.260,D393,2,104,312,2026-03-29T00:30:00.587Z,2026-03-29T00:30:00.760Z""",
    f"outages {AT} --rate 1200 --shortest 0.5 --length 1200": """
begin_s,end_s,length_s,begin_bit,end_bit,begin_utc,end_utc
0.260,1.000,0.740,312,1200,2026-03-29T00:30:00.260Z,2026-03-29T00:30:01.000Z""",
}


@pytest.mark.parametrize("asked", TABLES)
def test_tables_with_their_times(asked: str, two: bytes) -> None:
    assert said(*asked.split(), "--unfinished", data=two) == TABLES[asked].split()


def test_block_errors_of_the_sample(station: bytes, station_listing: bytes, tmp_path) -> None:
    names = "begin_s,end_s,sent,valid,corrected,lost,no_sync,bad_percent"
    rows = "0,60,2741,2740,0,0,1,0.04 60,120,2740,2740,0,0,0,0.00 120,168,2211,2211,0,0,0,0.00"
    assert said("errors", data=station) == [names, *rows.split()]
    (tmp_path / "-a station's.bin").write_bytes(station)
    for length in (200000, tmp_path / "-a station's.bin"):
        assert said("errors", "--length", length, data=station_listing) == [names, *rows.split()]


def test_outages_by_their_places(outages: bytes) -> None:
    ask = ("outages", "--unfinished", "--length", 208000)
    assert said(*ask, data=outages) == [
        "begin_s,end_s,length_s,begin_bit,end_bit",
        "26.274,28.025,1.752,31200,33280",
        "78.821,131.368,52.547,93600,156000",
    ]
    for words, places in (
        (("--shortest", 0.4), "10400-10920 31200-33280 93600-156000 206960-208000"),
        # Of 45.67 blocks in a second 8.7 per cent are the four of the group alone, and 8.8 per cent are five.
        (("--density", 8.7), "31200-33280 93600-124800 124904-156000"),
        (("--density", 8.8), "31200-33280 93600-156000"),
    ):
        found = [line.split(",")[3:] for line in said(*ask, *words, data=outages)[1:]]
        assert " ".join(map("-".join, found)) == places
    assert run(*ask, "--density", 101, data=outages).status == 2
    # A second has no 46 blocks, so none counts; at 1,196 bits per second it has just these.
    for words, rows in (
        ((), ["0.000,175.158,175.158,0,208000"]),
        (("--shortest", 60), ["0.000,175.158,175.158,0,208000"]),
        (("--rate", 1196, "--shortest", 40), ["78.261,130.435,52.174,93600,156000"]),
    ):
        assert said(*ask, "--density", 100, *words, data=outages)[1:] == rows
    # Groups without a bad block end an outage that began with the recording.
    assert said("outages", data=listing(lock(2000, 9 * [WORDS])))[1:] == ["0.000,1.684,1.684,0,2000"]


def test_the_end_of_a_part(two: bytes) -> None:
    """It ends with its last row, after which there is no outage, however short; nor is a stretch of two groups told."""
    assert said("errors", "--unfinished", *START, data=two)[-1].endswith(",2026-03-29T00:30:00.263Z")
    assert said("programmes", "--unfinished", data=two)[1:] == []
    # An outage of just the shortest length is told: 0.08 s are 95 bits.
    for shortest, length, end in ((0, 312, "182"), (0.08, 406, "begin_bit"), (0.08, 407, "312")):
        asked = ("outages", "--unfinished", "--shortest", shortest, "--length", length)
        assert said(*asked, data=two)[-1].split(",")[3] == end
    assert [run("errors", "--rate", value, data=two).status for value in (1068, 1307)] == [2, 2]


@pytest.mark.parametrize("seconds, programmes", [(9.9, 1), (10.1, 2)])
def test_a_pause_by_default(seconds: float, programmes: int) -> None:
    begins = [104 * n for n in range(5)]
    later = [begins[-1] + 104 + int(seconds * 1187.5) + begin for begin in begins]
    rows = [group_row(place, WORDS) for place in begins + later]
    assert len(said("programmes", "--unfinished", data=listing(rows, totals=False))) == 1 + programmes


@pytest.mark.parametrize("command", [*COMMANDS, "groups", "json", "info", "report"])
def test_recordings_of_nothing(command: str) -> None:
    """No bit, less than a block, and some blocks of noise: nothing is divided by what is not there."""
    if command == "report":
        pytest.importorskip("jinja2")
    assert run(command).err == f"rds-monitor {command}: the input is empty\n"
    for data, rows in (
        (b"\0", {"errors": ["0,0,0,0,0,0,0,0.00"]}),
        (b"\0" * 100, {"errors": ["0,1,30,0,0,0,30,100.00"], "outages": []}),
    ):
        done = run(command, data=data)
        assert done.status == 0 or command == "report" and "needs D3" in done.err, done.err
        if command in rows:
            assert done.out.splitlines()[1:] == rows[command]


def test_group_types(station: bytes) -> None:
    assert said("types", data=station) == [
        "type,version,groups,corrected,first_s,last_s",
        "0,A,296,0,0.022,166.488",
        "1,A,74,0,0.350,166.575",
        "2,A,1184,0,0.438,167.976",
        "3,A,148,0,1.839,168.152",
        "4,A,74,0,2.014,168.239",
        "8,A,74,0,2.102,168.327",
        "11,A,73,0,2.189,166.137",
    ]
    mix = [line.split(",") for line in said("types", "--every", 60, *START, data=station)[1:]]
    assert run("types", "--every", 0.5, data=station).status == 2
    assert [*dict.fromkeys(row[0] for row in mix)] == ["0", "60", "120"]
    assert sum(int(row[4]) for row in mix) == 1923 and mix[0][:5] == ["0", "60", "0", "A", "108"]
    assert mix[-1][:3] == ["120", "180", "11"] and mix[-1][6] == "2026-03-29T00:32:00.000Z"


def test_types_of_corrected_blocks_by_themselves() -> None:
    rows = [
        group_row(0, WORDS),
        group_row(104, (0xD393, 0x0549, 0xE0CD, 0x5041)),
        group_row(208, (0xD393, None, None, 0x5041)),
        group_row(312, (0xD393, 0x2D49, 0xD393, 0x5041), prime=True),
        group_row(416, (0xD393, 0x0D49, 0xD393, 0x5041)),
    ]
    for at in (1, 3, 4):
        block(rows[at][0], 2, int(rows[at]["info2"][0]), 1)
    assert said("types", "--unfinished", data=listing(rows, False)) == [
        "type,version,groups,corrected,first_s,last_s",
        "0,A,1,1,0.000,0.088",
        "0,A!,0,1,0.350,0.350",
        "2,B,0,1,0.263,0.263",
        "-,?,1,0,0.175,0.175",
    ]
    of_no_group = said("types", "--every", 60, "--unfinished", data=listing([acquired_row(51, 2)], False))
    assert of_no_group == ["begin_s,end_s,type,version,groups,corrected"]


def test_the_rows_as_a_table(station: bytes, station_listing: bytes) -> None:
    table = said("table", *START, data=station)
    assert table[:2] == [
        "event,bit,type,version,block1,block2,block3,block4,time_s,time_utc",
        "acquired,51,2,-,-,-,-,-,0.043,2026-03-29T00:30:00.043Z",
    ]
    plain = [row.rsplit(",", 2)[0] for row in table[1:]]
    assert plain == station_listing.decode().splitlines()[:-12]
    assert said("table", data=station)[2] == "group,26,0,A,none,B:0548,C:E100,D:5041,0.022"


def test_columns_for_parquet(station_listing: bytes) -> None:
    rows = read(station_listing)
    columns = columns_of(rows, Clock(0.5, 1024.0))
    assert [*columns] == [*ITEM.names, "time_s", "time_utc"]
    assert all((columns[name] == rows[name]).all() for name in ITEM.names)
    assert columns["time_s"].tolist() == (rows["place"] / 1024).tolist()
    wanted = [500000 + place * 15625 // 16 for place in rows["place"].tolist()]
    assert columns["time_utc"].astype("i8").tolist() == wanted


def test_parquet(station: bytes, tmp_path) -> None:
    done = run("table", "--parquet", tmp_path / "it.parquet", *START, data=station)
    try:
        import pandas

        frame = pandas.read_parquet(tmp_path / "it.parquet")
    except (ImportError, FileNotFoundError):
        assert done.status == 1 and "Parquet needs pyarrow" in done.err
    else:
        assert len(frame) == 1924 and frame.info1[2] == 0xD393


class Writer:
    """In place of that of pyarrow: the tables of a file, whose columns are numpy's, until it is closed."""

    def __init__(self, path: str, schema: str):
        self.path, self.schema = path, schema
        self.rows, self.is_closed = 0, False
        Writer.made.append(self)

    made: "List[Writer]" = []

    def write_table(self, table: SimpleNamespace) -> None:
        assert not self.is_closed
        self.rows += len(table.columns["place"])

    def close(self) -> None:
        self.is_closed = True


def test_parquet_by_pyarrow(station: bytes, monkeypatch) -> None:
    """A table per chunk, into one file, which is closed at last."""
    table = lambda columns: SimpleNamespace(columns=columns, schema=" ".join(columns))
    monkeypatch.setitem(sys.modules, "pyarrow", SimpleNamespace(table=table))
    monkeypatch.setitem(sys.modules, "pyarrow.parquet", SimpleNamespace(ParquetWriter=Writer))
    assert output("table", "--parquet", "it.parquet", *START, data=station) == ""
    (made,) = Writer.made
    assert (made.path, made.rows, made.is_closed) == ("it.parquet", 1924, True)
    assert made.schema.endswith("time_s time_utc")


def test_parquet_by_pandas(station: bytes, monkeypatch) -> None:
    """All rows of several chunks, numbered from 0 on."""
    pandas, frames = pytest.importorskip("pandas"), []
    monkeypatch.setitem(sys.modules, "pyarrow", None)
    monkeypatch.setattr(pandas.DataFrame, "to_parquet", lambda *given: frames.append(given))
    assert output("table", "--parquet", "it.parquet", *START, data=20 * station) == ""
    ((frame, path),) = frames
    assert path == "it.parquet" and frame.index[-1] == len(frame) - 1 > 38000


# ---- other tables, and parts


@pytest.mark.parametrize("command", [*COMMANDS, "clock"])
def test_inputs_that_are_no_listing(command: str, station_listing: bytes) -> None:
    table = "\n".join(said("errors", data=station_listing)).encode()
    for data, fault in (
        (table, f"rds-monitor {command}: row 1: "),
        (station_listing[:30000], "does not end in its totals"),
        (station_listing * 2, "a second listing begins here"),
    ):
        done = run(command, data=data)
        assert done.status == 1 and fault in done.err


def test_a_part_of_a_listing(station_listing: bytes) -> None:
    part = b"".join(station_listing.splitlines(keepends=True)[500:1500])
    rows = [line.split(",") for line in said("errors", "--unfinished", data=part)[1:]]
    assert sum(int(row[2]) for row in rows) == 4000 == sum(int(row[3]) for row in rows)
    assert said("outages", "--unfinished", data=part)[1:] == []
    assert run("errors", data=part).status == 1


def test_a_recording_longer_than_its_rows(station: bytes, station_listing: bytes) -> None:
    assert said("outages", "--trust-length", "--length", 1600000, data=station_listing)[1:] == [
        "168.414,1347.368,1178.954,199992,1600000"
    ]
    for data, asked, status, fault in (
        (station_listing, "errors --length 1600000", 1, "--trust-length"),
        (station_listing, "outages --length 199888", 1, "past the 199888 bits of the recording"),
        (station_listing, "errors --length none", 1, "errors: --length 'none': No such file or directory\n"),
        (station, "errors --length 5", 2, "--length is for a listing"),
    ):
        done = run(*asked.split(), data=data)
        assert done.status == status and fault in done.err


@pytest.mark.parametrize("command", [*COMMANDS, "report"])
def test_a_listing_has_the_tables_of_its_recording(command: str, station: bytes) -> None:
    """In all fields, if its length is told: it may end in bits of no row."""
    data = damaged(station, 0.02, 4) + numpy.random.default_rng(4).bytes(9000) + station[:5000] + bytes(700)
    of_recording = run(command, *START, data=data)
    if "needs D3" in of_recording.err or command == "report" and not importlib.util.find_spec("jinja2"):
        pytest.skip("needs libjs-d3 and jinja2")
    listing = rds("list", data=data)
    assert run(command, *START, "--length", 8 * len(data), data=listing) == of_recording
    assert of_recording.status == 0


# ---- against plain loops, on random rows


def noise(seed: int) -> Rows:
    """Groups of any blocks, some of which follow on one another, and some not."""
    random = numpy.random.default_rng(seed)
    count = int(random.integers(1, 60))
    first, rows = random.integers(0, 4, count), numpy.zeros(count, ITEM)
    first[random.random(count) < 0.6] = 0
    last = first + (random.random(count) * (4 - first)).astype(int)
    last[random.random(count) < 0.6] = 3
    for number in range(4):
        read = (first <= number) & (number <= last)
        kinds = random.choice([LOST, VALID, VALID, VALID, CORRECTED], count)
        rows[f"kind{number + 1}"] = kinds * read
        known = read & (kinds >= VALID)
        rows[f"info{number + 1}"], rows[f"offset{number + 1}"] = (
            random.integers(1, 3, count) * known,
            BLOCK_OFFSETS[number] * known,
        )
        rows[f"burst{number + 1}"] = 3 * (read & (kinds == CORRECTED))
    rows["what"] = GROUP
    set_types(rows)
    pauses = random.choice([0, 0, 0, 0, 0, 1, 40, 1000, 3000], count)
    lengths = 26 * (last - first + 1)
    rows["place"] = numpy.cumsum(pauses) + numpy.cumsum(lengths) - lengths
    return rows


SEEDS, CUTS = st.integers(0, 2**32 - 1).map(noise), st.lists(st.integers(0, 60), max_size=3)


def blocks_in(rows: Rows) -> Iterator[Tuple[int, int]]:
    """The position of each block's first bit, and its outcome."""
    for row in rows:
        if row["what"] == GROUP:
            kinds = [int(row[f"kind{number}"]) for number in (1, 2, 3, 4)]
            first = next(n for n, kind in enumerate(kinds) if kind)
            for n, kind in enumerate(kinds):
                if kind:
                    yield int(row["place"]) + 26 * (n - first), kind


def in_chunks(rows: Rows, cuts: List[int]) -> Iterator[Rows]:
    edges = [0, *sorted(cut % (len(rows) + 1) for cut in cuts), len(rows)]
    return (rows[begin:end] for begin, end in zip(edges, edges[1:]))


@settings(max_examples=150, deadline=None)
@given(SEEDS, CUTS, st.sampled_from([26.0, 77.5, 104.0, 1187.5, 5000.3]), st.integers(0, 900))
def test_intervals_against_a_loop(rows: Rows, cuts: List[int], bits: float, tail: int) -> None:
    errors = Errors(bits)
    for chunk in in_chunks(rows, cuts):
        errors.add(chunk)
    places = list(blocks_in(rows))
    end = places[-1][0] + 26 + tail
    found = list(errors.intervals(0, end))
    counts = Counter((int(place / bits), outcome) for place, outcome in places)
    for at, entry in enumerate(found):
        wanted = [counts[at, outcome] for outcome in (VALID, CORRECTED, LOST)]
        assert [entry.valid, entry.corrected, entry.lost] == wanted
        assert entry.sent == entry.valid + entry.corrected + entry.lost + entry.missing
    # All of it adds up to what was sent.
    assert len(found) == math.ceil(end / bits)
    assert sum(interval.sent for interval in found) == end // 26
    assert sum(interval.sent - interval.missing for interval in found) == len(places)


@settings(max_examples=150, deadline=None)
@given(SEEDS, CUTS, st.sampled_from([0, 10, 40, 100]), st.sampled_from([0.0, 0.08, 1.0]))
def test_outages_against_a_loop(rows: Rows, cuts: List[int], share: float, shortest: float) -> None:
    outages = Outages(1187.5, share, shortest)
    outages.begin(0)
    end = max(place for place, _ in blocks_in(rows)) + 500
    found = [outage for chunk in in_chunks(rows, cuts) for outage in outages.add(chunk)]
    known = outages.end
    found += outages.close(end)
    valid = [place for place, kind in blocks_in(rows) if kind == VALID]
    needed = max(1, math.ceil(share / 100 * 1187.5 / 26))
    counting = [
        place
        for n, place in enumerate(valid)
        if any(
            last < len(valid) and valid[last] + 26 - valid[last - needed + 1] <= 1187.5
            for last in range(max(n, needed - 1), n + needed)
        )
    ]
    # A block after the last ones may still make these count.
    sure = set(counting) & set(valid[: max(0, len(valid) - needed + 1)])
    assert known == max((place + 26 for place in sure), default=0)
    wanted, last_end = [], 0
    for place in [*counting, end]:
        if place - last_end >= shortest * 1187.5 and place > last_end:
            wanted.append((last_end, place))
        last_end = place + 26
    assert found == wanted


@settings(max_examples=100, deadline=None)
@given(SEEDS, CUTS, st.integers(1, 3))
def test_programmes_against_a_loop(rows: Rows, cuts: List[int], least: int) -> None:
    programmes = Programmes(least, 1000)
    found = [one for chunk in in_chunks(rows, cuts) for one in programmes.add(chunk)] + programmes.close()
    stretches: List[List[int]] = []
    for row in rows:
        if row["kind1"] != VALID:
            continue
        place, last = int(row["place"]), max(place for place, _ in blocks_in(numpy.array([row], ITEM)))
        pi = int(row["info1"])
        if stretches and stretches[-1][0] == pi and place <= stretches[-1][3] + 1000:
            stretches[-1][1] += 1
            stretches[-1][3] = last + 26
        else:
            stretches.append([pi, 1, place, last + 26])
    assert [list(entry) for entry in found] == [stretch for stretch in stretches if stretch[1] >= least]


def test_counts_are_those_of_the_totals(station: bytes) -> None:
    """Damaged as it may be, what the tables count is what rds counts."""
    for seed, rate in enumerate((0.001, 0.02, 0.08, 0.5)):
        data = damaged(station, rate, seed)
        told = rds("totals", "--loss", 20, data=data).decode().splitlines()
        totals = {name: int(value) for _, name, value, *_ in (line.split(",") for line in told)}
        errors, corrected, types = (
            [line.split(",") for line in said(*asked, "--loss", 20, data=data)[1:]]
            for asked in (("errors", "--every", 7), ("corrected",), ("types",))
        )
        sums = numpy.sum([[int(entry) for entry in row[2:7]] for row in errors], axis=0).tolist()
        bursts = sum(totals[f"burst{n}"] for n in range(1, 6))
        assert sums[1:4] == [totals["valid"], bursts, totals["lost"]] and len(corrected) == bursts
        # A block that begins before the end and is cut there was not sent whole.
        assert sums[0] == sum(sums[1:]) and sums[0] in (8 * len(data) // 26, 8 * len(data) // 26 + 1)
        assert sum(int(row[2]) + int(row[3]) for row in types) == totals["groups"]


def test_times_of_intervals_with_a_part_of_a_second(station: bytes) -> None:
    for words in ("errors --every 1.5", "types --every 1.5"):
        found = {tuple(row.split(",")[:2]) for row in said(*words.split(), data=station)[1:]}
        assert {("0.000", "1.500"), ("1.500", "3.000")} <= found
