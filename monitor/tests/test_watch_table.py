"""The table of stations, its errors, and the command line of `watch`."""

from __future__ import annotations

import importlib
import re
import sys
import syslog
from pathlib import Path
from typing import Any, List, Tuple
from unittest import mock

import pytest

from conftest import TOP
from made import run
from network import stations
from rds_monitor.rows.decoders import ByProgram
from rds_monitor.rows.items import Fault
from rds_monitor.watch import alarms, asked, journal, loop, receiver, service as watch, table, times
from rds_monitor.watch.table import AlarmLimits, Keep, StationTable, table_of

ALPHA = ('name = "Alpha"', 'command = ["receiver", "-f", "98.1M"]')


def test_defaults() -> None:
    found = table_of(stations(*ALPHA))
    (one,) = found.stations
    assert (
        found.folder is None
        and found.keep == Keep(0, 0, 0, False)
        and one.command == ("receiver", "-f", "98.1M")
    )
    assert one == StationTable(
        "Alpha", one.command, "bits", patience=10, alarms=AlarmLimits(), pi=(), ps=(), af=()
    )


def test_the_longest_name() -> None:
    """Of 100 bytes."""
    assert table_of(stations(f'name = "{50 * "é"}"', ALPHA[1])).stations[0].name == 50 * "é"
    with pytest.raises(Fault, match="cannot be the name of a folder"):
        table_of(stations(f'name = "{50 * "é"}a"', ALPHA[1]))


def test_all_of_it() -> None:
    alpha = (
        'pi = ["d318", "D218"]',
        "af = [0.153, 98.1, 107.9]",
        'ps = ["ALPHA*", "NEWS"]',
        'rt = "*"',
        "frequency = 98.1",
        'alarm_command = ["page", "{text}"]',
    )
    limits = ("[station.alarms]", "silent = 30", "errors = 60", "errors_percent = 5")
    beta = ("--", 'name = "Beta"', 'command = ["b"]', 'form = "iq"', "offset = -1e5")
    found = table_of(
        'folder = "/tmp/a"\n[keep]\nlistings_days = 60\nlistings_gb = 0.5\ndatabase_days = 0\n[defaults]\nform = "mpx"\nraw = "s16"\nrate = 171000\n'
        "[defaults.alarms]\nsilent = 20\nta = false\n" + stations(*ALPHA, *alpha, *limits, *beta)
    )
    one, other = found.stations
    assert found.keep == Keep(60, 0.5, 0) and one.pi == ("D318", "D218") and one.ps == ("ALPHA*", "NEWS")
    assert one.af == (153, 98100, 107900)
    assert (
        one.alarms == AlarmLimits(silent=30, ta=None, errors=60, errors_percent=5)
        and other.alarms.silent == 20
    )
    assert other.form == "iq" and other.rate == 171000 and other.offset == -1e5 and one.rt == ("*",)
    assert one.same_receiver(one) and not one.same_receiver(other)
    assert one.soft and other.soft and not found.needs_soft


NORTH = '[[receiver]]\nname = "north"\ncommand = ["n"]\nraw = "u8"\nrate = 2400000\ncentre = 98.0\n'
MPX = ('form = "mpx"', 'raw = "s16"', "rate = 171000")


@pytest.mark.parametrize(
    ("before", "lines", "soft", "needed"),
    [
        ("", (), False, False),
        ("", MPX, True, False),
        ("", (*MPX, "soft = false"), False, False),
        ("", (*MPX, "soft = true"), True, True),
        ("[defaults]\nsoft = false\n", MPX, False, False),
        ("[defaults]\nsoft = true\n", MPX, True, True),
        (NORTH, ('receiver = "north"', "frequency = 97.3"), True, False),
        (NORTH + "soft = true\n", ('receiver = "north"', "frequency = 97.3"), True, True),
        (NORTH + "soft = false\n", ('receiver = "north"', "frequency = 97.3"), False, False),
    ],
)
def test_soft_decisions(before: str, lines: Tuple[str, ...], soft: bool, needed: bool) -> None:
    """They are the default for MPX and IQ, and needed only if the table says so."""
    words = ALPHA[:1] if before.startswith(NORTH) else ALPHA
    found = table_of(before + stations(*words, *lines))
    (one,) = found.stations
    assert (one.soft, found.needs_soft) == (soft, needed)
    assert one.receiver is None or one.receiver.soft == soft and found.receivers == (one.receiver,)
    hard = found.hard()
    assert not hard.stations[0].soft and [of.soft for of in hard.receivers] == [False] * len(found.receivers)
    assert one.same_receiver(hard.stations[0]) == (not soft)


def test_soft_decisions_of_the_decoder(monkeypatch: pytest.MonkeyPatch, capsys: Any) -> None:
    """One that has none does without those by default, says so, and is an error if the table needs them."""
    asked: List[Any] = []

    def decoder_of(program: Any, jobs: Any = ()) -> Any:
        asked.append((program, *jobs))
        if jobs:
            raise Fault("it has no soft decisions")
        return ByProgram, "/usr/bin/rds"

    monkeypatch.setattr(watch, "decoder_of", decoder_of)
    bits, soft, needed = (table_of(stations(*ALPHA, *lines)) for lines in ((), MPX, (*MPX, "soft = true")))
    assert watch.decoding_of("rds", bits) == ("rds", ByProgram, "/usr/bin/rds", bits) and asked == [("rds",)]
    assert watch.decoding_of(None, soft) == (None, ByProgram, "/usr/bin/rds", soft.hard())
    assert "/usr/bin/rds has no soft decisions: blocks are corrected by bursts" in capsys.readouterr().err
    assert asked[1:] == [(None, "follow"), (None,)]
    with pytest.raises(Fault, match="it has no soft decisions"):
        watch.decoding_of(None, needed)
    # A table that is read again is for the same decoder.
    one: Any = object.__new__(watch.Service)
    one._decoding = watch.Decoding("mine", ByProgram, "/usr/bin/rds", bits)
    assert (one._fitted(bits), one._fitted(soft)) == (bits, soft.hard())
    assert asked[-2:] == [("mine", "follow"), ("mine",)]
    one._decoding = one._decoding._replace(name="librds 0.2.0")
    assert one._fitted(bits) == bits
    with pytest.raises(Fault, match="^soft decisions by /usr/bin/rds need a restart$"):
        one._fitted(soft)


@pytest.mark.parametrize(
    ("text", "fault"),
    [
        ("", "there is no [[station]]"),
        ("[[station]", "this is no TOML"),
        ('folder = ""\n' + stations(*ALPHA), "folder: a text is needed"),
        ("speed = 3\n" + stations(*ALPHA), "the table has an unknown key 'speed'"),
        (stations('name = "Alpha"'), "station 'Alpha' has no 'command'"),
        (stations('command = ["a"]'), "the station number 1 has no 'name'"),
        (stations('name = "Alpha"', 'command = "rtl_fm -f 98.1M"'), "a list of words is needed"),
        (stations('name = "Alpha"', 'command = ["a\\u0000"]'), "a list of words is needed"),
        (stations('name = ".etc"', 'command = ["a"]'), "cannot be the name of a folder"),
        (stations('name = "index"', 'command = ["a"]'), "cannot be the name of a folder"),
        (stations('name = "a/b"', 'command = ["a"]'), "cannot be the name of a folder"),
        (stations('name = "a\\nb"', 'command = ["a"]'), "cannot be the name of a folder"),
        (stations(*ALPHA, "--", 'name = "ALPHA"', 'command = ["a"]'), "there are two stations"),
        (stations(*ALPHA, 'pi = "D31"'), "four hexadecimal digits"),
        (stations(*ALPHA, "pi = 0xD318"), "four hexadecimal digits"),
        (stations(*ALPHA, 'pi = ["D318", ""]'), "four hexadecimal digits in quotes, or a list of such"),
        (stations(*ALPHA, "af = [108]"), "a list of frequencies in MHz"),
        (stations(*ALPHA, "af = 0.1"), "a list of frequencies in MHz"),
        (stations(*ALPHA, 'form = "wav"'), "one of bits, mpx, iq"),
        (stations(*ALPHA, 'raw = "s8"'), "one of s16, f32, u8"),
        (stations(*ALPHA, 'form = "mpx"'), "needs 'raw' and 'rate'"),
        (stations(*ALPHA, 'form = "mpx"', 'raw = "s16"'), "needs 'raw' and 'rate'"),
        (stations(*ALPHA, 'form = "iq"', "offset = 3e6"), "a number of Hz is needed"),
        (stations(*ALPHA, 'form = "iq"', "offset = -3e6"), "a number of Hz is needed"),
        (stations(*ALPHA, 'form = "iq"', "offset = true"), "a number of Hz is needed"),
        (stations(*ALPHA, "rate = 171000"), "are for the forms mpx and iq"),
        (stations(*ALPHA, 'form = "mpx"', 'raw = "s16"', "rate = 48000"), "128000 to 20000000 samples"),
        (stations(*ALPHA, "patience = -1"), "a number that is not below 0"),
        (stations(*ALPHA, "patience = 1e12"), "a number that is not below 0"),
        (stations(*ALPHA, "patience = true"), "a number that is not below 0"),
        (stations(*ALPHA, "[station.alarms]", "loud = 3"), "unknown key 'loud'"),
        (stations(*ALPHA, "[station.alarms]", 'silent = "15"'), "alarm silent of station 'Alpha'"),
        (stations(*ALPHA, "[station.alarms]", "errors_percent = false"), "a number that is not below 0"),
        (stations(*ALPHA, "[station.alarms]", "errors = 61"), "alarm errors of station 'Alpha': at most 60"),
        (stations(*ALPHA, "[station.alarms]", "ct = 61"), "alarm ct of station 'Alpha': at most 60"),
        (stations(*ALPHA, 'ps = ""'), "a pattern or a list of patterns"),
        ("[keep]\ncompress = 1\n" + stations(*ALPHA), "keep.compress: true or false is needed"),
        ('[keep]\nlistings_days = "60"\n' + stations(*ALPHA), "keep.listings_days"),
        ('[defaults]\nname = "a"\n' + stations(*ALPHA), "[defaults]"),
        ("[[station]]", "the station number 1 has no 'name'"),
        ("[[receiver]]\n" + stations(*ALPHA), "the receiver number 1 has no 'name'"),
        ('[[receiver]]\nname = "r"\n' + stations(*ALPHA), "receiver 'r' has no 'command'"),
        ('[[receiver]]\nname = "r"\ncommand = ["a"]\n' + stations(*ALPHA), "receiver 'r' has no 'raw'"),
        ('[[receiver]]\nname = "r"\ncommand = ["a"]\nraw = "u8"\n' + stations(*ALPHA), "has no 'rate'"),
    ],
)
def test_errors(text: str, fault: str) -> None:
    with pytest.raises(Fault) as caught:
        table_of(text)
    assert fault in str(caught.value)


def test_no_compressor(monkeypatch: pytest.MonkeyPatch) -> None:
    text = "[keep]\ncompress = true\n" + stations(*ALPHA)
    assert table_of(text).keep.compress
    monkeypatch.setitem(sys.modules, "zstandard", None)
    with pytest.raises(Fault, match="python3-zstandard"):
        table_of(text)


def test_no_reader_of_toml(monkeypatch: pytest.MonkeyPatch) -> None:
    """Of Python 3.9 and 3.10 without tomli; with it, that one reads the table."""
    real, there = importlib.import_module, set()

    def found(name: str) -> Any:
        if name not in there:
            raise ImportError(name)
        return real("tomllib")

    monkeypatch.setattr(table.importlib, "import_module", found)
    with pytest.raises(Fault, match="python3-tomli"):
        table_of(stations(*ALPHA))
    there.add("tomli")
    assert len(table_of(stations(*ALPHA)).stations) == 1


def test_the_command_line(tmp_path: Path) -> None:
    path = tmp_path / "stations.toml"
    path.write_text(stations(*ALPHA))
    for speed, fault in (
        (1, "there is no folder to write to"),
        (0.01, "there is no folder"),
        (0.009, "--speed is a number"),
    ):
        done = run("watch", "--speed", speed, path)
        assert done.status == 1 and fault in done.err
    done = run("watch", tmp_path / "none.toml")
    assert done.status == 1 and "No such file" in done.err
    path.write_bytes(b"\xff")
    assert "not in UTF-8" in run("watch", path).err
    assert run("watch").status == 2


MINE = 'program = "mine"\nfolder = "/mine"\n'
OTHER = ("--program", "other", "--folder", "/other")


@pytest.mark.parametrize(
    ("words", "text", "program", "folder"),
    [((), "", None, "/state"), ((), MINE, "mine", "/mine"), (OTHER, MINE, "other", "/other")],
)
def test_which_program_decodes_and_where_the_watch_writes(
    words: List[str], text: str, program: Any, folder: str, tmp_path: Path, monkeypatch: pytest.MonkeyPatch
) -> None:
    """By the command line, or else by the table, or else by librds into the first folder of systemd."""
    asked: List[Any] = []

    def decoder_of(program: Any, jobs: Any) -> Any:
        asked.append(program)
        return ByProgram, "rds"

    made = mock.Mock(**{"return_value.run.return_value": 3})
    monkeypatch.setattr(watch, "decoder_of", decoder_of)
    monkeypatch.setattr(watch, "Service", made)
    monkeypatch.setenv("STATE_DIRECTORY", "/state:/more")
    path = tmp_path / "stations.toml"
    path.write_text(text + stations(*ALPHA))
    assert run("watch", *words, path).status == 3 and asked == [program]
    assert made.call_args[0][0] == str(path) and made.call_args[0][2:] == (folder, 1.0)


def test_commands_that_are_tried(tmp_path: Path) -> None:
    """Those of receivers and of alarms have to be there, and programs; each that is not is told."""
    path, plain = tmp_path / "stations.toml", tmp_path / "plain"
    plain.write_text("")
    alarm = f'alarm_command = ["{plain}", "x"]'
    path.write_text(
        stations(*ALPHA, alarm, "--", 'name = "Beta"', 'command = ["sh", "-c", "cat"]', "patience = 30")
    )
    done = run("watch", "--check", path)
    assert done.status == 1 and done.out == "Alpha: bits, receiver -f 98.1M\nBeta: bits, sh -c cat\n"
    told = [line.partition("Alpha: ")[2] for line in done.err.splitlines()]
    assert told[-2:] == ["there is no program 'receiver'", f"'{plain}' may not be run"]
    plain.chmod(0o755)
    path.write_text('program = "none/rds"\n' + stations('name = "Alpha"', f'command = ["{plain}"]', alarm))
    done = run("watch", "--check", path)
    assert done.status == 1 and "program: there is no program 'none/rds'\n" in done.err


@pytest.mark.parametrize(
    ("lines", "warns"),
    [
        ([], True),
        (["patience = 27.59", "[station.alarms]", "silent = 30"], True),
        # The alarm `silent` would come.
        (["patience = 30"], True),
        (["patience = 30", "[station.alarms]", "silent = 27.6"], False),
        (["patience = 30", "[station.alarms]", "silent = false"], False),
        (['form = "mpx"', 'raw = "u8"', "rate = 128000"], False),
    ],
)
def test_a_burst_that_is_longer_than_patience(tmp_path: Path, lines: List[str], warns: bool) -> None:
    """A buffer of 4,096 bytes is full after 4096 * 8 / 1187.5 s. That is a warning."""
    path = tmp_path / "stations.toml"
    path.write_text(stations('name = "Alpha"', 'command = ["cat"]', *lines))
    done = run("watch", "--check", path)
    assert done.status == 0 and ("4 KiB writes each 27.6 s" in done.err and "stdbuf -o0" in done.err) == warns
    path.write_text(path.read_text().replace('"cat"', '"stdbuf", "-o0", "cat"'))
    assert run("watch", "--check", path).err == ""


def test_the_tables_that_are_shown() -> None:
    """The examples of the page are tables."""
    page = (TOP / "monitor" / "WATCHING.md").read_text()
    for title in ("The table of stations", "A receiver of several stations"):
        text = page.split(f"## {title}\n")[1].split("##")[0]
        shown = "\n".join(line[4:] for line in text.splitlines() if line.startswith("    "))
        assert table_of(shown).stations[0].name == "Alpha"


PAGE = " ".join((TOP / "monitor" / "WATCHING.md").read_text().split())


def test_limits_of_the_page() -> None:
    """The defaults of the alarms, and for how long the fault has to be gone."""
    rows = re.findall(r"\| `(\w+)` \| [^|]* \| ([^|]*) \| ([^|]*) \|", PAGE.split("## Alarms")[1])
    assert [name for name, _, _ in rows] == list(alarms.NAMES)
    for name, default, ends in rows:
        numbers = [float(text) for text in re.findall(r"\d+", default)] or [None]
        more = {"errors": ["errors_percent"], "ct": ["ct_offset"]}.get(name, [])
        assert [getattr(AlarmLimits(), one) for one in (name, *more)] == numbers, name
        clear = re.match(r"(\d+) s(?: |$)", ends)
        assert alarms.CLEAR.get(name) == (float(clear[1]) if clear else None), name
    assert alarms.RECOVERED == 4 / 5 and "as many minutes below 4/5 of that" in PAGE


def test_numbers_of_the_page() -> None:
    """What the page says of pauses and limits, and the constants that it means."""
    patience = StationTable("", ()).patience
    for told, numbers in (
        (
            f"gives no byte for `patience` seconds ({patience:g}). The pause is a second, and doubles up to a minute; a run of a minute",
            [(1, receiver.FIRST_PAUSE), (60, receiver.LONGEST_PAUSE), (60, receiver.GOOD_RUN)],
        ),
        ("is set forward by more than a second", [(1, times.STEP)]),
        (
            "come more than half a second later for ten seconds",
            [(0.5, times.Arrivals.LATE), (10, times.Arrivals.WINDOW)],
        ),
        ("correct it, for the first second", [(1, times.Arrivals.SETTLING)]),
        ("up to 8 MB per station", [(8 << 20, loop.MOST_WAITING)]),
        ("Twice a second the new rows are appended", [(0.5, watch.TICK)]),
        ("Pages and metrics are written anew each minute", [(60, loop.PAGES_EVERY)]),
        ("without a shell, for at most a minute", [(60, loop.HOOK_SECONDS)]),
        ("UNKNOWN if the watch has not written for a minute", [(60, asked.NEWS)]),
    ):
        assert told in PAGE and all(wanted == found for wanted, found in numbers), told


def test_priorities_of_the_journal(
    monkeypatch: pytest.MonkeyPatch, capsys: pytest.CaptureFixture[str]
) -> None:
    """Those of syslog, by which systemd takes them."""
    kinds = syslog.LOG_ERR, syslog.LOG_WARNING, syslog.LOG_NOTICE, syslog.LOG_INFO
    wanted = dict(zip(("error", "warning", "notice", "info"), kinds))
    assert journal.PRIORITIES == wanted
    for known, mark in (({"JOURNAL_STREAM": "8:1"}, "<4>"), ({}, "rds-monitor watch: ")):
        monkeypatch.setattr(journal.os, "environ", known)
        journal.say("warning", "a line")
        assert capsys.readouterr().err == f"{mark}a line\n"
