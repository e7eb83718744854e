"""The check for monitoring systems: its one line, and its status."""

from __future__ import annotations

import fnmatch
import gzip
import io
import lzma
import os
import subprocess
import time
from unittest import mock
from typing import Any, List

import numpy
import pytest
import zstandard

from conftest import COMMAND, encode, monitor, ran, rds
from rds_monitor import ITSELF, __version__
from rds_monitor.rows.items import LOST
from made import group_row, listing, lock, run, split
from rds_monitor.watch.check import Reception, _tail, seen_in
from rds_monitor.watch.verdict import Limits, Seen, Verdict

VALID = "99.99 % of the blocks valid, last valid group 0.007 s ago"
DATA = "valid=99.99%;90:;50:;0;100 corrected=0.00%;;;0;100 age=0.007s;10;60;0"
WHOLE = "RDS OK - 100.00 % of the blocks valid, last valid group 0.??? s ago"
ROW = "row 1: 'begin_s,end_s' is no row of a listing"


def judged(status: int, pattern: str, *words: Any, data: bytes = b"") -> str:
    """One line and its status. The pattern has no brackets, and a word may be several, parted by blanks."""
    done = run("check", *split(words), data=data)
    assert done.err == "" and done.out.endswith("\n") and done.out.count("\n") == 1
    fits = fnmatch.fnmatchcase(done.out[:-1], pattern.replace("[", "[[]"))
    assert (done.status, fits) == (status, True), (done.status, done.out)
    return done.out


def ago(path: Any, seconds: float) -> None:
    os.utime(path, (time.time() - seconds,) * 2)


@pytest.fixture(autouse=True)
def still(monkeypatch: pytest.MonkeyPatch) -> None:
    """The clock stands still, however long a test takes."""
    now = time.time()
    monkeypatch.setattr("rds_monitor.watch.check.time.time", lambda: now)


@pytest.fixture
def sample(tmp_path, station: bytes):
    path = tmp_path / "station.bin"
    path.write_bytes(station)
    return path


@pytest.fixture
def listed(tmp_path, station_listing: bytes):
    path = tmp_path / "station.csv"
    path.write_bytes(station_listing)
    return path


def test_a_good_reception(sample, listed) -> None:
    judged(0, f"RDS OK - {VALID} | {DATA}", sample)
    judged(0, f"RDS OK - {VALID}, programme D393 | {DATA}", "--pi", "d393", sample)
    judged(2, f"RDS CRITICAL - {VALID}, programme D393 instead of D312 | {DATA}", "--pi", "D312", sample)
    judged(1, f"RDS WARNING - {VALID} | {DATA.replace('90:', '99.99:')}", "-w", 99.99, sample)
    judged(2, f"RDS CRITICAL - {VALID} | {DATA.replace('90:;50:', '99.99:;99.99:')}", "-c", 99.99, sample)
    judged(1, f"RDS WARNING - {VALID} | {DATA.replace('10;60', '0.005;60')}", "-W", 0.005, sample)
    judged(
        0,
        "RDS OK - 99.99 % of the blocks valid, last valid group 0.000 s ago, name PAXOLIDU | *",
        "--name PAXOLIDU",
        listed,
    )
    judged(0, "RDS OK - 99.99 % *", "-", data=sample.read_bytes())


# Per cent of valid blocks and seconds since the last group, at each limit and past it, and the status.
@pytest.mark.parametrize(
    "valid, age, status",
    [
        (90, 10, 0),
        (89.9, 0, 1),
        (50, 0, 1),
        (49.9, 0, 2),
        (100, 10.1, 1),
        (100, 60, 1),
        (100, 60.1, 2),
        (60, 61, 2),
    ],
)
def test_limits(valid: float, age: float, status: int) -> None:
    verdict = Verdict()
    verdict.judge(Seen(valid, 0.0, age, None, []), Limits(90, 50, 10, 60), None, [])
    assert verdict.status == status


@pytest.mark.parametrize("seconds, pi", [(9.9, 0xD393), (10.1, None)])
def test_a_programme_has_three_groups(seconds: float, pi: Any) -> None:
    """With ten seconds at most between two of them."""
    reception = Reception(1300.0, False)
    places = (0, 104, 208 + int(seconds * 1300))
    reception.add(numpy.concatenate([group_row(place, (0xD393, 0x0548, 0xE0CD, 0x5041)) for place in places]))
    reception.close()
    assert reception.pi == pi


def test_names_of_the_last_minute() -> None:
    """Of 60 s by the rate, and the one that held as it began."""
    reception = Reception(1300.0, True)
    reception.end, names = 100000, [(0, "GONE"), (21999, "HELD"), (22000, "AT"), (99999, "NOW")]
    setattr(reception, "_names", names)
    assert reception.names() == ["HELD", "AT", "NOW"]


@pytest.mark.parametrize("end, quiet, sent", [(103, 4.9, 4), (1404, 4.9, 54), (1404, 5, 304)])
def test_blocks_are_missed_after_five_seconds(end: int, quiet: float, sent: int) -> None:
    """A file may be between two writes. Where its last block is cut, no more than all are valid."""
    reception = Reception(1300.0, False)
    reception.add(group_row(0, (0xD393, 0x0548, 0xE0CD, 0x5041)))
    reception.end = end
    age = pytest.approx((end - 104) / 1300 + quiet)
    assert seen_in(reception, quiet, 1300.0) == Seen(400 / sent, 0, age, None, [])


def test_what_is_told_of_the_last_minute() -> None:
    verdict = Verdict()
    verdict.judge(
        Seen(None, None, 1.0, None, ["NEWS 1", "ALPHA", "NEWS 2"]), Limits(90, 50, 10, 60), None, ["NEWS*"]
    )
    assert verdict.said == ["no whole minute yet", "last valid group 1.000 s ago", "name NEWS 2"]
    assert verdict.data == ["valid=U", "corrected=U", "age=1.000s;10;60;0"] and verdict.status == 0


@pytest.mark.parametrize("suffix", ["gz", "xz", "zst"])
def test_compressed_files(suffix: str, sample, listed) -> None:
    """As they are without it, whole or their ends, alone or before a plain one."""
    compress = {"gz": gzip.compress, "xz": lzma.compress, "zst": zstandard.ZstdCompressor().compress}[suffix]
    packed = [path.with_suffix(f"{path.suffix}.{suffix}") for path in (sample, listed)]
    for path, plain in zip(packed, (sample, listed)):
        path.write_bytes(compress(plain.read_bytes()))
        told = run("check", plain).out
        judged(0, told[:-1], path)
        judged(0, told[:-1], "-", data=path.read_bytes())
        part = run("check", "--last", 60, plain).out
        judged(0, part[: part.index("last valid")] + "*", "--last", 60, path)
    half = listed.read_bytes().splitlines(True)
    packed[1].write_bytes(compress(b"".join(half[:900])))
    listed.write_bytes(b"".join(half[900:]))
    judged(0, "RDS OK - 100.00 % *", "--last", 100, packed[1], listed)


def test_the_words_that_run_it_from_anywhere() -> None:
    """Whatever the paths of the process are that says them."""
    done = ran([*ITSELF, "--version"], cwd="/", env={"PATH": os.environ["PATH"]})
    assert (done.returncode, done.stderr) == (0, "") and done.stdout.startswith(
        f"rds-monitor {__version__}\n"
    )


def test_the_process_ends_in_the_status(sample) -> None:
    done = monitor("check", "--pi", "D312", sample)
    assert done.returncode == 2 and done.stdout.startswith(b"RDS CRITICAL - 99.99 %")


def test_a_station_that_is_gone(tmp_path, station: bytes) -> None:
    path = tmp_path / "-gone.bin"
    path.write_bytes(station + bytes(10000))
    judged(2, "RDS CRITICAL - 71.42 % of the blocks valid, last valid group 67.375 s ago | *", path)
    judged(2, "RDS CRITICAL - 0.00 % of the blocks valid, no valid group | *;100 age=U", "--last", 60, path)
    judged(
        2, "RDS CRITICAL - 43.8? % of the blocks valid, last valid group 67.??? s ago | *", "--last 120", path
    )
    judged(1, "RDS WARNING - 71.42 % of the blocks valid, *", "-C", 90, "--", path)


# ---- files that grow


def test_a_growing_listing(tmp_path, station_listing: bytes) -> None:
    path = tmp_path / "growing.csv"
    path.write_bytes(b"".join(station_listing.splitlines(keepends=True)[:1000]) + b"group,1037")
    judged(0, f"{WHOLE}, programme D393 | *", "--last 20 --pi D393", path)
    ago(path, 30)
    judged(
        2, "RDS CRITICAL - 39.?? % of the blocks valid, last valid group 30.??? s ago | *", "--last 20", path
    )
    ago(path, 15)
    judged(
        1, "RDS WARNING - 85.?? % of the blocks valid, last valid group 15.??? s ago | *", "--last 300", path
    )
    # By a clock that was set back.
    ago(path, -30)
    judged(0, f"{WHOLE} | *", "--last 20", path)


def test_an_hours_file_that_began_40_seconds_ago(tmp_path, station_listing: bytes) -> None:
    """It begins amid the stream, and is judged from its first row on: with the hour before, over both."""
    lines = station_listing.splitlines(keepends=True)[:1400]
    before, now = tmp_path / "00Z.csv", tmp_path / "01Z.csv"
    before.write_bytes(b"".join(lines[:943]))
    now.write_bytes(b"".join(lines[943:]))
    judged(0, f"{WHOLE}, programme D393 | *", "--last 300 --pi D393", now)
    judged(0, f"{WHOLE} | *", "--last 300", before, now)
    judged(0, "RDS OK - 100.00 % *", "--last", 50, before, now)
    # One that has no row yet: the hour before is judged.
    now.write_bytes(b"")
    judged(0, "RDS OK - 100.00 % *", "--last", 300, before, now)
    ago(before, 30)
    judged(1, "RDS WARNING - 7?.?? % *, last valid group 30.??? s ago | *", "--last", 300, before, now)
    # An hour's file in which the station went away.
    place = int(lines[1399].split(b",")[1])
    damage = b"".join(b"group,%d,-,?,lost,lost,lost,lost\n" % (place + 104 * n) for n in range(1, 300))
    now.write_bytes(b"".join(lines[943:]) + damage)
    judged(
        2,
        "RDS CRITICAL - 6?.?? % of the blocks valid, last valid group 26.??? s ago | *",
        "--last 300 -W 5 -C 20",
        now,
    )


def test_whole_hours_files_need_no_totals(tmp_path, station_listing: bytes) -> None:
    """By their names: each is judged from its first row on."""
    lines = station_listing.splitlines(keepends=True)[943:1400]
    hour, other = tmp_path / "2026-11-27T03Z_20261127T030000.000Z.csv", tmp_path / "it.csv"
    hour.write_bytes(b"".join(lines[:200]))
    other.write_bytes(b"".join(lines[200:]))
    judged(0, "RDS OK - 100.00 % *", hour)
    judged(3, "RDS UNKNOWN - row 1: a listing begins with an acquisition: *", hour, other)


def restarted(tmp_path, second: bytes, totals: bool) -> Any:
    """A followed stream: a station for a minute, ended or killed, and what came after the restart."""
    groups = [(0xD393, 0x0548 + n % 4, 0xE0CD, 0x5041) for n in range(700)]
    first = rds("follow", data=encode(groups))
    path = tmp_path / "stream.csv"
    path.write_bytes((first if totals else first[: first.index(b"total,")]) + second)
    return path


@pytest.mark.parametrize("totals", [False, True])
def test_a_stream_that_was_restarted_then_noise(tmp_path, totals: bool) -> None:
    noise = numpy.random.default_rng(6).integers(0, 256, 400000, "u1").tobytes()
    rows = rds("follow", "--loss", 1, data=noise)
    rows = rows[: rows.index(b"total,")]
    assert rows.count(b"\n") > 3
    path = restarted(tmp_path, rows, totals)
    for words in ((), ("--pi", "D393"), ("--pi", "D312")):
        judged(2, "RDS CRITICAL - ?.?? % of the blocks valid, no valid group*", "--last", 300, *words, path)
    # The new station for a while, and then noise.
    groups = encode([(0xD312, 0x0548 + n % 4, 0xE0CD, 0x5041) for n in range(60)])
    rows = rds("follow", "--loss", 1, data=groups + noise)
    path = restarted(tmp_path, rows[: rows.index(b"total,")], totals)
    for pi in ("D393", "D312"):
        judged(2, "RDS CRITICAL - ?.?? % of the blocks valid, *", "--last", 300, "--pi", pi, path)
    judged(2, "RDS CRITICAL - * programme D312 instead of D393 | *", "--last", 3000, "--pi", "D393", path)
    # A restart that nothing was received after: the file does not grow.
    path = restarted(tmp_path, b"", totals)
    ago(path, 70)
    judged(
        2,
        "RDS CRITICAL - ??.?? % of the blocks valid, last valid group 7?.??? s ago, programme D393 | *",
        "--last 300 --pi D393",
        path,
    )


def test_a_stream_that_was_restarted_well(tmp_path) -> None:
    rows = rds("follow", data=encode([(0xD312, 0x0548 + n % 4, 0xE0CD, 0x5041) for n in range(200)]))
    path = restarted(tmp_path, rows, False)
    judged(0, "RDS OK - 100.00 % of the blocks valid, *, programme D312 | *", "--last 300 --pi D312", path)
    judged(0, "RDS OK - 99.?? % of the blocks valid, *, programme D312 | *", "--pi", "D312", path)
    judged(2, "RDS CRITICAL - * programme D312 instead of D393 | *", "--last", 300, "--pi", "D393", path)


def test_only_the_end_of_a_long_file_is_read(tmp_path) -> None:
    many = numpy.concatenate([group_row(104 * n, (0xD393, 0x0548, 0xE0CD, 0x5041)) for n in range(500)])
    rows = numpy.tile(many, 100)
    rows["place"] = 104 * numpy.arange(len(rows))
    path = tmp_path / "long.csv"
    text = listing([rows], totals=False)
    # Damage before the seconds that are judged is not even seen.
    path.write_bytes(text[:1000] + b"X" + text[1000:])
    judged(0, "RDS OK - 100.00 % *", "--last", 30, path)
    # Each block that is judged is valid, and each before it is lost.
    rows[: len(rows) // 4]["kind1"] = LOST
    path.write_bytes(listing([rows], totals=False))
    good = int((len(rows) - len(rows) // 4) * 104 / 1187.5)
    judged(0, "RDS OK - 100.00 % *", "--last", good, path)
    judged(0, "RDS OK - 99.?? % *", "--last", good + 60, path)
    # In 2.08 s there are 95 blocks, which are no whole number of bytes; 39 are valid, since the first of ten groups acquires sync.
    path.write_bytes(bytes(1000) + encode([[0xD393, 0x0548, 0xE0CD, 0x5041]] * 10))
    judged(2, f"RDS CRITICAL - {100 * 39 / 95:.2f} % of the blocks valid*", "--last", 2.08, path)
    # At 1300 bits per second there are 104.
    judged(2, f"RDS CRITICAL - {100 * 39 / 104:.2f} % *", "--last 2.08", "--rate 1300", path)
    # Of symbols each is a byte.
    bits = numpy.unpackbits(numpy.frombuffer(path.read_bytes(), "u1"))
    path.write_bytes((240 * numpy.bitwise_xor.accumulate(bits) - 120).astype("i1").tobytes())
    judged(2, "RDS CRITICAL - 4?.?? % *", "--last 2.08", "--soft", path)


# ---- the length, and names


@pytest.mark.parametrize("most, kept", [(65535, 65536), (65536, 69632), (69632, 69632)])
def test_the_end_of_a_compressed_file(most: int, kept: int) -> None:
    """Of 4,096 and 65,536 bytes: one more than asked for tells whether a line begins there."""
    assert len(_tail(bytes(4096), io.BytesIO(bytes(65536)), most).getvalue()) == kept


def test_a_dead_tail(listed, station: bytes) -> None:
    judged(
        2,
        "RDS CRITICAL - 46.78 % of the blocks valid, last valid group 191.569 s ago | *",
        "--length 427480",
        listed,
    )
    longer = listed.parent / "it.bin"
    longer.write_bytes(station + bytes(1000))
    judged(
        0,
        "RDS OK - 96.14 % of the blocks valid, last valid group 6.744 s ago | *",
        "--length",
        longer,
        listed,
    )


def names(*texts: str, each: int = 4) -> List[List[int]]:
    groups = []
    for text in texts:
        padded = text.encode("ascii").ljust(8)
        words = [int.from_bytes(padded[2 * n : 2 * n + 2], "big") for n in range(4)]
        groups += [[0xD393, 0x0548 + n % 4, 0xE0CD, words[n % 4]] for n in range(4 * each)]
    return groups


def of_names(path, *texts: str, each: int = 4) -> Any:
    path.write_bytes(listing(lock(26, names(*texts, each=each), lost=False)))
    return path


def test_a_pattern_for_dynamic_ps(tmp_path) -> None:
    path = of_names(tmp_path / "it.csv", "ALPHA FM", "Now: The", "Song of", "the Day")
    for pattern in ("ALPHA FM", "ALPHA*", "*FM", "ALPHA?FM", "the Day"):
        judged(
            0,
            f"RDS OK - * valid, *, name {'the Day' if pattern == 'the Day' else 'ALPHA FM'} | *",
            "--name",
            pattern,
            path,
        )
    judged(0, "RDS OK - *, name ALPHA FM | *", "--name", "BETA*", "--name", "ALPHA*", path)
    judged(
        2, "RDS CRITICAL - *, name the Day instead of BETA? or GAMMA | *", "--name BETA? --name GAMMA", path
    )
    # A name more than a minute before the end does not count.
    path = of_names(tmp_path / "it.csv", "ALPHA FM", *["BETA FM", "Now"] * 8, each=20)
    judged(2, "RDS CRITICAL - *, name Now instead of ALPHA* | *", "--name", "ALPHA*", path)


def test_names_are_text(tmp_path) -> None:
    path = of_names(tmp_path / "it.csv", 'A|"B,CDE')
    judged(0, 'RDS OK - *, name A/"B,CDE | *', "--name", 'A|"B,CDE', path)
    path = of_names(tmp_path / "it.csv", "A[1]*")
    judged(0, "RDS OK - *, name A[1]* | *", "--name", "A[1]?", path)
    judged(2, "RDS CRITICAL - *, name A[1]* instead of A1 | *", "--name", "A1", path)
    path.write_bytes(listing(lock(26, names("NAME")[:3], lost=False)))
    judged(1, "RDS WARNING - * valid, last valid group 0.000 s ago, no name | *", "--name", "NAME", path)


# ---- what cannot be judged


def test_what_cannot_be_judged(tmp_path, listed, station_listing: bytes) -> None:
    judged(3, f"RDS UNKNOWN - there is no file {tmp_path}/no \\x07ne to read", tmp_path / "no\n\ane")
    empty, cut, table = tmp_path / "empty", tmp_path / "cut.csv", tmp_path / "table.csv"
    empty.write_bytes(b"")
    cut.write_bytes(station_listing[:50000])
    table.write_bytes(b"begin_s,end_s\n0,60\n60,120\n")
    judged(3, f"RDS UNKNOWN - there is nothing in {empty}", empty)
    judged(3, f"RDS UNKNOWN - there is nothing in {empty}", "--last", 60, empty)
    judged(3, "RDS UNKNOWN - the listing does not end in its totals: *", cut)
    judged(3, f"RDS UNKNOWN - {ROW}*", table)
    judged(3, f"RDS UNKNOWN - {ROW}*", "--last", 60, table)
    judged(
        3,
        "RDS UNKNOWN - a row is of bit 199991, past the 100 bits of the recording: *",
        "--length 100",
        listed,
    )
    judged(3, "RDS UNKNOWN - --length 'none': No such file or directory", "--length", "none", listed)
    judged(3, "RDS UNKNOWN - *: Is a directory", tmp_path)
    judged(3, "RDS UNKNOWN - of several inputs each must be a file", "-", listed, data=b"x")
    judged(3, "RDS UNKNOWN - --length is for a listing", "--length 8", "-", data=b"x")


@pytest.mark.parametrize(
    "words, fault",
    [
        (["-w", "x", "it"], "argument -w: 'x' is no number"),
        (["-w", "101", "it"], "argument -w: '101' is above 100 per cent"),
        (["--pi", "3930x", "it"], "argument --pi: '3930x' is not four hexadecimal digits"),
        ([], "the following arguments are required: INPUT"),
        (["--name", " ", "it"], "argument --name: a name is not empty"),
        (["--nothing", "it"], "unrecognized arguments: --nothing"),
        (["-w", "50", "-c", "90", "it"], "-w 50 is below -c 90: no warning would come"),
        (["-W", "60", "-C", "10", "it"], "-W 60 is above -C 10: no warning would come"),
        (["--last", "60", "--length", "5", "it"], "a listing that is being written has no --length"),
        (["--last", "0", "it"], "--last takes more than 0 seconds"),
        (["--loss", "3", "--share", "3", "it"], "there is no file it to read"),
    ],
)
def test_command_lines_that_are_none(words: List[str], fault: str) -> None:
    assert fault in judged(3, "RDS UNKNOWN - *", *words)


@pytest.mark.parametrize(
    "fault, told", [(OSError(5, "broken"), "reading: broken"), (KeyError(5), "KeyError: 5")]
)
def test_a_fault_of_any_kind_is_unknown(fault: Exception, told: str, monkeypatch: pytest.MonkeyPatch) -> None:
    monkeypatch.setattr("rds_monitor.watch.check.open_end", mock.Mock(side_effect=fault))
    judged(3, f"RDS UNKNOWN - {told}", "it")


def test_limits_of_which_one_is_given(sample) -> None:
    for words, limits in (
        (("-w", 30), "30:;30:"),
        (("-w", 60), "60:;50:"),
        (("-c", 95), "95:;95:"),
        (("-c", 30), "90:;30:"),
        (("-W", 100), "age=0.007s;100;100"),
        (("-W", 5), "age=0.007s;5;60"),
        (("-C", 5), "0.007s;5;5"),
        (("-C", 90), "0.007s;10;90"),
    ):
        assert limits in judged(0, "RDS OK - *", *words, sample)


def test_no_library_is_unknown(sample, tmp_path) -> None:
    done = ran(
        [*COMMAND, "check", str(sample)],
        env={**os.environ, "RDS_LIBRARY": str(tmp_path / "none"), "RDS": "/none"},
    )
    assert done.returncode == 3 and done.stdout.startswith("RDS UNKNOWN - ")
    done = subprocess.run(
        [*COMMAND, "check", str(sample)], stdout=open("/dev/full", "w"), stderr=subprocess.PIPE
    )
    assert done.returncode not in (0, 2)
