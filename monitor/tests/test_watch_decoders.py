"""A watch decodes by librds or by processes of rds: the same rows after the same bits, and the same files."""

from __future__ import annotations

import os
import signal
import time
from pathlib import Path
from typing import Any, Dict, List, Tuple

import numpy
import pytest

from conftest import PROGRAM, TOP, encode, monitor, no_librds, rds
from network import START, Air, Network, Plan, Programme, asked, decoders_of, hours_in, numbers_in, stations
from rds_monitor.rows import decoders
from rds_monitor.rows.decoders import ByLibrary, ByProgram, NewDecoder, by_program, decode, decoder_of
from rds_monitor.rows.items import Fault, Rules
from rds_monitor.rows.listing import text_of, totals_text
from station import Periodic, encoded
from test_watch_process import STARTED, Process, all_received, nothing_is_left, receiver, table

_ = nothing_is_left
ALPHA = Programme(0xD318, "ALPHA", "Now: nothing much")


def received(seconds: float) -> bytes:
    """With wrong bits, some of which can be corrected, and noise for a while."""
    air = Air(ALPHA, START, seconds)
    air.noise(seconds / 3, seconds / 2)
    chance = numpy.random.default_rng(3)
    data = numpy.frombuffer(air.bytes(0, air.at(seconds)), "u1")
    wrong = numpy.packbits(chance.random(8 * data.size) < 0.005)
    return bytes((data ^ wrong).tobytes())


def test_a_simulated_station_sends_what_rds_encodes() -> None:
    chance = numpy.random.default_rng(2)
    groups = [tuple(int(word) for word in chance.integers(0, 65536, 4)) for _ in range(300)]
    groups = [(pi, word & ~0x800, c, d) for pi, word, c, d in groups]
    assert encoded(groups) == encode(groups)


# ---- rows


def test_the_same_rows_after_the_same_bits() -> None:
    """After each push, of no byte or of many, both have given the same, which in the end is the listing."""
    data, chance = received(60), numpy.random.default_rng(1)
    library, program = ByLibrary(), ByProgram(PROGRAM)
    text, at = b"", 0
    while at < len(data):
        size = int(chance.choice([0, 1, 2, 3, 13, 40, 149, 700]))
        rows = [value.push(data[at : at + size]) for value in (library, program)]
        assert (rows[0] == rows[1]).all() and library.place == program.place
        text, at = text + text_of(rows[1]), at + size
    ends = [value.finish() for value in (library, program)]
    assert (ends[0][0] == ends[1][0]).all() and ends[0][1] == ends[1][1] and ends[1][1] is not None
    rows, totals = decode(data)
    assert text + text_of(ends[1][0]) + totals_text(ends[1][1]) == rds("list", data=data)
    assert text_of(rows) + totals_text(totals) == rds("list", data=data)


def test_a_push_that_fills_all_pipes() -> None:
    data = received(20) * 400
    assert len(data) > 1 << 20
    library, program = ByLibrary(), ByProgram(PROGRAM)
    assert (library.push(data) == program.push(data)).all() and library.finish()[1] == program.finish()[1]


def test_no_bits() -> None:
    for one in (ByLibrary(), ByProgram(PROGRAM)):
        rows, totals = one.finish()
        assert not len(rows) and totals is not None and not totals.groups


def test_the_job_of_a_program() -> None:
    """A program may have soft decisions in another job."""
    jobs = [ByProgram(PROGRAM, rules, soft_job="list")._words[0] for rules in (Rules(), Rules(margin=32))]
    assert jobs == ["follow", "list"]


# ---- a program that fails


def test_a_program_that_dies() -> None:
    program = ByProgram(PROGRAM)
    given = len(program.push(received(5)))
    assert given and program._process and os.getsid(program._process.pid) == program._process.pid
    os.kill(program._process.pid, signal.SIGKILL)
    with pytest.raises(Fault, match=" was ended by SIGKILL"):
        program.push(b"more")
    with pytest.raises(Fault, match=" was ended by SIGKILL"):
        program.finish()


def script(folder: Path, text: str) -> str:
    path = folder / "rds"
    path.write_text(f'#!/bin/sh\n[ "$1" = follow ] || exec \'{PROGRAM}\' "$@"\n{text}\n')
    path.chmod(0o755)
    return str(path)


@pytest.mark.parametrize(
    "text, reason",
    [
        ("exec sleep 60", "did nothing for 0.5 s"),
        ("read -r x; printf '%081d\\n' 1; cat > /dev/null", "writes no listing: b'0{80}'$"),
        ("echo of no use >&2; exec >&-; sleep 0.3; exit 3", "ended with status 3: of no use"),
        ("exec /none/rds", "ended with status 12[67]: "),
        ("exit 0", "ended with status 0$"),
        ("echo refused 8 OutOfMemory >&2; echo more >&2; exit 1", "^refused 8 OutOfMemory$"),
    ],
)
def test_a_program_that_is_none(
    tmp_path: Path, monkeypatch: pytest.MonkeyPatch, text: str, reason: str
) -> None:
    # a machine that is loaded may start the others late
    monkeypatch.setattr(decoders, "PATIENCE", 0.5 if "did nothing" in reason else 60.0)
    program = ByProgram(script(tmp_path, text))
    with pytest.raises(Fault, match=reason):
        program.push(b"some bytes\n")
    with pytest.raises(Fault):
        program.finish()


def test_a_line_whose_end_is_not_there_yet(tmp_path: Path) -> None:
    rest = "read -r x; printf ',26,0,A,none,B:0548,C:E0CD,D:5041\\n'; cat > /dev/null"
    program = ByProgram(script(tmp_path, f"printf 'acquired,51,2,-,-,-,-,-\\ngroup'; {rest}"))
    assert [len(program.push(data)) for data in (b"x", b"\n")] == [1, 1]


def test_which_decoder(tmp_path: Path, monkeypatch: pytest.MonkeyPatch) -> None:
    assert decoder_of() == (ByLibrary, "librds 0.2.0")
    assert isinstance(by_program(PROGRAM)[0](), ByProgram)
    with pytest.raises(Fault, match="no program '/none/rds'"):
        by_program("/none/rds")
    with pytest.raises(Fault, match="is not the program rds"):
        by_program("/bin/echo")
    monkeypatch.setattr(decoders, "library", no_librds)
    monkeypatch.delenv("RDS", raising=False)
    monkeypatch.setenv("PATH", str(tmp_path))
    with pytest.raises(
        Fault, match="neither librds nor rds .*No module named 'librds'; there is no program 'rds'"
    ):
        decoder_of()
    found = script(tmp_path, 'exec rds "$@"')
    assert decoder_of()[1] == found
    monkeypatch.setenv("RDS", PROGRAM)
    assert decoder_of()[1] == os.path.abspath(PROGRAM)


# ---- the network

TWO = stations('name = "Alpha"', 'command = ["a"]', 'pi = "D318"', "--", 'name = "Beta"', 'command = ["b"]')


def simulated(folder: Path, decoder: NewDecoder) -> Network:
    """Three minutes over an hour: noise, another PI, receivers that die, hang and are late, and a clock that is set."""
    folder.mkdir()
    other = ALPHA._replace(pi=0xD319, wrong_pi=Periodic(90, 20))
    alpha, beta = (Air(programme, START, 190) for programme in (ALPHA, other))
    alpha.noise(25, 36)
    alpha.noise(130, 150)
    beta.noise(70, 71)
    plans = {
        "a": [Plan(dies=40.25), Plan(hangs=30), Plan(late=0.4)],
        "b": [Plan(), Plan(dies=10), Plan(dies=31.3)],
    }
    network = Network(folder, TWO, {"a": alpha, "b": beta}, plans, decoder)
    network.run(80)
    network.times.utc += 5400
    network.run(30.5)
    network.times.utc -= 7000
    network.run(20)
    network.reload(TWO.replace('["b"]', '["b", "again"]'))
    network.run(50)
    network.end()
    return network


def test_the_same_files(tmp_path: Path) -> None:
    by = {"library": ByLibrary, "program": by_program(PROGRAM)[0]}
    one, other = (simulated(tmp_path / name, decoder) for name, decoder in by.items())
    found = [contents(value.folder) for value in (one, other)]
    assert found[0].keys() == found[1].keys() and len(found[0]) >= 8
    for path, data in found[0].items():
        assert found[1][path] == data, path
    assert tables(one.folder) == tables(other.folder)
    assert one.said == other.said and one.runs == other.runs


def contents(folder: Path) -> Dict[str, bytes]:
    paths = sorted((folder / "listings").rglob("*.csv"))
    return {str(path.relative_to(folder)): path.read_bytes() for path in paths}


def tables(folder: Path) -> Dict[str, List[Tuple[Any, ...]]]:
    """All that the database knows."""
    names = "SELECT name FROM sqlite_master WHERE type = 'table' AND name NOT LIKE 'sqlite%'"
    return {name: asked(folder, f"SELECT * FROM {name}") for (name,) in asked(folder, names)}


# ---- as a process


def test_signals_to_all_processes(tmp_path: Path) -> None:
    """systemd signals all processes of a service. The decoder goes on until all that was sent is in the files."""
    process = Process(tmp_path, table(tmp_path, command=receiver(tmp_path)), program=PROGRAM)
    process.says(f"decoded by {PROGRAM}")
    process.receives(1000)
    (decoder,) = decoders_of(process.it.pid)
    for number in (signal.SIGHUP, signal.SIGINT, signal.SIGTERM):
        os.kill(decoder, number)
    assert process.end() == 0
    assert not Path(f"/proc/{decoder}").exists()
    (hour,) = (tmp_path / "listings" / "Alpha").iterdir()
    assert hour.read_bytes().endswith(b"-,-,-,-,-\n") and b"total,losses," in hour.read_bytes()
    all_received(tmp_path)


def test_a_decoder_that_is_killed(tmp_path: Path) -> None:
    """The session ends without totals, and the next one goes on with another decoder."""
    process = Process(tmp_path, table(tmp_path), program=PROGRAM)
    process.receives(500)
    os.kill(decoders_of(process.it.pid)[0], signal.SIGKILL)
    process.says("was ended by SIGKILL")
    process.says("the session has no totals")
    process.receives(500)
    assert process.end() == 0
    numbers = [number for number, _ in numbers_in(hours_in(tmp_path, "Alpha"))]
    assert numbers == sorted(set(numbers)) and len(numbers) > 3
    texts = [path.read_bytes() for path in sorted((tmp_path / "listings" / "Alpha").iterdir())]
    # three files if an hour began meanwhile
    assert len(texts) > 1
    assert [b"total,losses," in text for text in texts] == [False] * (len(texts) - 1) + [True]


def test_no_decoder_outlives_its_watch(tmp_path: Path) -> None:
    process = Process(tmp_path, table(tmp_path), program=PROGRAM)
    process.receives(500)
    (decoder,) = decoders_of(process.it.pid)
    process.it.kill()
    process.it.wait()
    STARTED.remove(process.it.pid)
    end = time.monotonic() + 60
    while Path(f"/proc/{decoder}").exists() and state_of(decoder) != b"Z":
        assert time.monotonic() < end
        time.sleep(0.05)


def state_of(pid: int) -> bytes:
    return Path(f"/proc/{pid}/stat").read_bytes().rpartition(b") ")[2][:1]


def test_without_the_library(tmp_path: Path) -> None:
    """The module is missing: rds is found by its name."""
    (tmp_path / "bin").mkdir()
    (tmp_path / "bin" / "rds").symlink_to(os.path.abspath(PROGRAM))
    command = ["sh", "-c", f"cat {tmp_path}/bits; sleep 60"]
    known = dict(PYTHONPATH=str(TOP / "monitor"), RDS_LIBRARY="/none/librds.so.0")
    path = f"{tmp_path}/bin:{os.environ['PATH']}"
    (tmp_path / "bits").write_bytes(received(20))
    process = Process(tmp_path, table(tmp_path, command=command), PATH=path, RDS="", **known)
    process.says(f"decoded by {tmp_path}/bin/rds")
    process.receives()
    assert process.end() == 0


def test_a_program_in_the_table(tmp_path: Path) -> None:
    path = table(tmp_path)
    path.write_text(f'program = "{PROGRAM}"\n' + path.read_text())
    process = Process(tmp_path, path)
    process.says(f"decoded by {PROGRAM}")
    assert process.end() == 0
    wrong = monitor("watch", "--program", "/none/rds", path)
    assert wrong.returncode == 1 and b"there is no program '/none/rds'" in wrong.stderr
