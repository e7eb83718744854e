"""The scripts of examples/ and the recipes of docs/RECIPES.md, on the sample and on three made hours of a station."""

from __future__ import annotations

import os
import random
import shutil
import subprocess
import time
from pathlib import Path
from typing import Callable

import pytest
from running import TOP, Ran, needs, run, said, wrote
from test_differential import hand_on

EXAMPLES = TOP / "examples"
ROTATE_USAGE = "usage: rotate.sh [--by FORMAT] FOLDER < LISTING"

Cases = Callable[[int], None]


@pytest.fixture(scope="session")
def listing(rds: str, station: bytes) -> bytes:
    return wrote(rds, "list", data=station)


def example(name: str, *words: object, data: bytes = b"", **variables: str) -> Ran:
    """Runs a script of examples/."""
    return run(EXAMPLES / name, *words, data=data, cwd=TOP, env={**os.environ, **variables})


def told(name: str, *words: object, data: bytes = b"", **variables: str) -> str:
    """The output of one that has to end well."""
    ended = example(name, *words, data=data, **variables)
    assert ended.status == 0, ended.err.decode()
    return ended.out.decode().removesuffix("\n")


def is_refused(ended: Ran, status: int, text: str) -> bool:
    """Whether a script ended so, with this text as its first fault."""
    return (ended.status, ended.err.decode().partition("\n")[0]) == (status, text)


def in_its_place(path: Path, command: str) -> None:
    """A command by another name."""
    path.parent.mkdir(exist_ok=True)
    path.write_text(f'#!/bin/sh\nexec {command} "$@"\n')
    path.chmod(0o755)


def held_in(folder: Path) -> bytes:
    return b"".join(path.read_bytes() for path in sorted(folder.iterdir()))


# ---- rotation of a stream


# The shell looks at the clock for each row.
SOME = 10000


def test_a_file_a_second(rds: str, station: bytes, tmp_path: Path, cases: Cases) -> None:
    """The stream comes in chunks of random lengths over more than a second."""
    cases(2)
    rotate = f"{EXAMPLES}/rotate.sh --by %Y-%m-%dT%H:%M:%SZ {tmp_path}/seconds"
    words = ["bash", "-o", "pipefail", "-c", f"{rds} follow | {rotate}"]
    with subprocess.Popen(words, stdin=subprocess.PIPE) as child:
        assert child.stdin
        hand_on(os.dup(child.stdin.fileno()), station[:SOME], 2000, 0.3, random.Random(1))
    assert child.returncode == 0
    listing = wrote(rds, "list", data=station[:SOME])
    assert held_in(tmp_path / "seconds") == listing and len([*(tmp_path / "seconds").iterdir()]) > 1


def test_a_file_that_is_there_is_added_to(tmp_path: Path) -> None:
    rows = b"a row\nanother\n"
    for _ in range(2):
        told("rotate.sh", "--by", "listing", tmp_path / "one", data=rows)
    assert (tmp_path / "one" / "listing.csv").read_bytes() == 2 * rows


def test_rotation_of_a_stream_that_is_killed(rds: str, station: bytes, tmp_path: Path, cases: Cases) -> None:
    """The complete rows stay, whole, and the same file is continued."""
    cases(3)
    words, pipe = [f"{EXAMPLES}/rotate.sh", "--by", "listing", str(tmp_path)], subprocess.PIPE
    following = subprocess.Popen([rds, "follow"], stdin=pipe, stdout=pipe)
    rotating = subprocess.Popen(words, stdin=following.stdout)
    assert following.stdin and following.stdout
    following.stdout.close()
    following.stdin.write(station[:2008])
    following.stdin.flush()
    rows = [row for row in wrote(rds, "list", data=station[:2008]).splitlines(True) if row[:6] != b"total,"]
    complete, path = b"".join(rows[:-1]), tmp_path / "listing.csv"
    for _ in range(300):
        if path.exists() and path.stat().st_size >= len(complete):
            break
        time.sleep(0.1)
    following.kill()
    assert rotating.wait(60) == 0 and path.read_bytes() == complete
    following.stdin.close()
    told("rotate.sh", "--by", "listing", tmp_path, data=wrote(rds, "follow", data=station[2008:SOME]))
    assert path.read_bytes() == complete + wrote(rds, "list", data=station[2008:SOME])


def test_rows_of_any_text(tmp_path: Path, cases: Cases) -> None:
    cases(2)
    told("rotate.sh", tmp_path / "cut", data=b"a row\ncut o")
    assert [path.read_bytes() for path in (tmp_path / "cut").glob("*Z.csv")] == [b"a row\ncut o"]
    told("rotate.sh", "--by", "row", tmp_path, data=b"  two\\tblanks \\\\n\n")
    assert (tmp_path / "row.csv").read_bytes() == b"  two\\tblanks \\\\n\n"


def test_a_file_by_the_hour_in_utc(tmp_path: Path) -> None:
    clock = tmp_path / "clock"
    in_its_place(clock / "date", f'{shutil.which("date")} -d "2026-11-24 15:30 UTC"')
    told("rotate.sh", tmp_path / "hour", data=b"a row\n", TZ="XYZ-5:30", PATH=f"{clock}:{os.environ['PATH']}")
    assert [path.name for path in (tmp_path / "hour").iterdir()] == ["2026-11-24T15Z.csv"]


@pytest.mark.parametrize("words", [[], ["-by"], [""], ["a", "b"]], ids=["none", "-by", "empty", "two"])
def test_usage_of_rotation(words: list[str]) -> None:
    assert is_refused(example("rotate.sh", *words), 2, ROTATE_USAGE)


def test_rotation_onto_a_full_device(listing: bytes, tmp_path: Path) -> None:
    (tmp_path / "full.csv").symlink_to("/dev/full")
    assert example("rotate.sh", "--by", "full", tmp_path, data=listing).status != 0


def test_a_stream_that_may_begin_anew(rds: str, listing: bytes, tmp_path: Path) -> None:
    script = 'rds() { "$RDS" "$@"; }; until rds follow 2> fault; do grep -q TooLong fault || exit 1; done'
    held, variables = (EXAMPLES / "station.bin").read_bytes(), {**os.environ, "RDS": rds}
    assert run("sh", "-c", script, data=held, cwd=tmp_path, env=variables) == (0, listing, b"")


# ---- three hours of a station, with an outage, a slip, a change of programme and dropped samples

ERRORS = """begin_s,end_s,sent,valid,corrected,lost,no_sync,bad_percent
0,1800,82212,80089,2103,19,1,2.58
1800,3600,82212,80109,2078,25,0,2.56
3600,5400,82211,40036,1077,187,40911,51.30
5400,7200,82212,80123,2058,31,0,2.54
7200,9000,82211,80091,2095,25,0,2.58
9000,10800,82210,79965,2130,31,84,2.73"""
OUTAGES = """begin_s,end_s,length_s,begin_bit,end_bit
3599.976,4500.025,900.049,4274972,5343780
9179.959,9182.017,2.058,10901201,10903645"""
PROGRAMMES = """begin_s,end_s,pi,groups,begin_bit,end_bit
0.088,3600.020,D393,40055,104,4275024
4500.069,7200.040,D393,30015,5343832,8550047
7200.040,10799.972,D312,40004,8550047,12824967"""
MADE = "bits 12824967 turned 12846 off_air_s 3600 4500 slip_s 5400 programme_s 7200 dropped 2510"
GAPS = "--gaps=9618725-9618730,10259973-10260103,10901221-10903596"
of_day = pytest.mark.xdist_group("day")


class Day:
    """The three hours: their file, what make_day.sh told, their listing, and their log of dropped samples."""

    def __init__(self, rds: str, folder: Path) -> None:
        self.path, self.rds = folder / "day.bin", rds
        self.told = told("make_day.sh", self.path, RDS=rds)
        self.listing = wrote(rds, "list", data=self.path.read_bytes())
        self.dropped = Path(f"{self.path}.dropped").read_bytes()

    def monitor(self, *words: object, data: bytes = b"") -> str:
        return said(TOP / "monitor" / "rds-monitor", *words, data=data, env={**os.environ, "RDS": self.rds})


@pytest.fixture(scope="session")
def day(rds: str, tmp_path_factory: pytest.TempPathFactory) -> Day:
    needs("perl", "awk")
    return Day(rds, tmp_path_factory.mktemp("day"))


@of_day
def test_made_day(day: Day) -> None:
    assert day.told.replace("\n", " ") == MADE


@of_day
def test_errors_and_outages_of_the_day(day: Day, cases: Cases) -> None:
    cases(4)
    length = ["--length", day.path]
    assert day.monitor("errors", "--every", 1800, *length, data=day.listing) == ERRORS
    assert day.monitor("errors", *length, data=day.listing) == day.monitor("errors", day.path)
    assert day.monitor("outages", *length, data=day.listing) == OUTAGES
    assert day.monitor("programmes", data=day.listing) == PROGRAMMES


def read_in_gaps(listing: bytes, dropped: bytes) -> int:
    """How many blocks that touch a gap are neither missing nor uncorrectable."""
    drops = (map(int, line.split()) for line in dropped.splitlines())
    gaps, count = [(start, start + length) for start, length in drops], 0
    for row in (line.split(",") for line in listing.decode().splitlines() if line.startswith("group,")):
        heard = [place for place in range(4) if row[4 + place] != "none"]
        begins = [int(row[1]) + 26 * (place - heard[0]) for place in heard if row[4 + place] != "lost"]
        count += sum(begin < end and start < begin + 26 for begin in begins for start, end in gaps)
    return count


@of_day
def test_dropped_samples_as_gaps(day: Day, cases: Cases) -> None:
    cases(4)
    assert told("gaps.sh", data=day.dropped) == GAPS
    marked = wrote(day.rds, "list", GAPS, data=day.path.read_bytes())
    assert (read_in_gaps(day.listing, day.dropped), read_in_gaps(marked, day.dropped)) == (2, 0)
    assert is_refused(example("gaps.sh", f"{day.path}.dropped"), 2, "usage: gaps.sh < LOG")


@of_day
@pytest.mark.parametrize("awk", ["gawk", "mawk", "original-awk", "busybox awk"])
def test_gaps_by_awk(day: Day, tmp_path: Path, awk: str, cases: Cases) -> None:
    cases(2)
    needs(awk.split()[0])
    in_its_place(tmp_path / "awk", awk)
    path = f"{tmp_path}:{os.environ['PATH']}"
    assert told("gaps.sh", data=day.dropped, PATH=path) == GAPS
    assert told("gaps.sh", data=b"68719476730 6\n", PATH=path) == "--gaps=68719476730-68719476736"


def test_days_of_two_seeds_and_of_any_name(rds: str, tmp_path: Path, cases: Cases) -> None:
    cases(2)
    needs("perl", "awk")
    told("make_day.sh", tmp_path / "seed_1", 0.1, RDS=rds)
    told("make_day.sh", tmp_path / "seed_2", 0.1, 2, RDS=rds)
    odd = tmp_path / 'it\'s $(false) "a" day'
    odd.mkdir()
    (odd / "rds").symlink_to(rds)
    told("make_day.sh", odd / "it", 0.1, RDS=str(odd / "rds"))
    days = [path.read_bytes() for path in (tmp_path / "seed_1", tmp_path / "seed_2", odd / "it")]
    assert days[0] == days[2] != days[1]


@pytest.mark.parametrize("full", ["full_day", "full_day.dropped"])
def test_day_on_a_full_device(rds: str, tmp_path: Path, full: str) -> None:
    needs("perl", "awk")
    (tmp_path / full).symlink_to("/dev/full")
    ended = example("make_day.sh", tmp_path / "full_day", 0.1, RDS=rds)
    assert ended.status != 0 and ended.err.decode() == f"make_day: {tmp_path / full} cannot be written\n"


def test_faults_of_a_day(tmp_path: Path, cases: Cases) -> None:
    cases(3)
    assert is_refused(example("make_day.sh"), 2, "usage: make_day.sh FILE [HOURS [SEED]]")
    ended = example("make_day.sh", tmp_path / "none", RDS="false")
    assert ended.status != 0 and ended.err == b"make_day: false encode failed\n" and not [*tmp_path.iterdir()]


LOGS = {
    "any order": ("120 10\n104 1\n\n110 5\n5 1\n105 7\n7 0\n", "--gaps=5-6,104-115,120-130"),
    "a gap inside another": ("104 100\n110 5\n300 1\n", "--gaps=104-204,300-301"),
    "nothing dropped": ("", ""),
}


@pytest.mark.parametrize("log, gaps", LOGS.values(), ids=LOGS)
def test_log(log: str, gaps: str) -> None:
    assert told("gaps.sh", data=log.encode()) == gaps


@pytest.mark.parametrize("line", ["104", "104 1 x", "-4 1", "0x10 1", "104 + 1"])
def test_log_of_something_else(line: str) -> None:
    ended = example("gaps.sh", data=f"5 1\n{line}\n".encode())
    assert ended == (2, b"", f'gaps: "{line}" is not a start and a length\n'.encode())


def test_no_listing_by_such_a_log(rds: str) -> None:
    script = f'gaps=$(examples/gaps.sh <<< "104 + 1") && {rds} list $gaps < examples/station.bin'
    ended = run("bash", "-c", script, cwd=TOP)
    assert ended.status != 0 and ended[1:] == (b"", b'gaps: "104 + 1" is not a start and a length\n')


def test_log_that_cannot_be_read() -> None:
    assert run("bash", "-c", "examples/gaps.sh < examples", cwd=TOP).status == 1


def test_form_of_the_manual_page() -> None:
    needs("mandoc")
    assert wrote("mandoc", "-T", "lint", "-W", "warning", TOP / "rds.1") == b""
