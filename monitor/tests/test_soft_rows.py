"""Symbols as an input of the commands, and listings by soft decisions."""

from __future__ import annotations

import csv
import io
import os
import random
import re
from pathlib import Path
from typing import Any

import pytest
from conftest import encode, rds
from made import joined, lock, output, read, run, said, symbols
from modulator import words

from rds_monitor.rows import opening, recording
from rds_monitor.rows.decoders import decoder_of
from rds_monitor.rows.hours import Hour
from rds_monitor.rows.items import CORRECTED, GROUP, Fault, Reading, Rules, totals_of
from rds_monitor.rows.listing import Listing, text_of, totals_text
from rds_monitor.rows.opening import open_source
from rds_monitor.rows.recording import SOFT_JOBS

SYMBOLS = symbols(encode(words(3, 400)), 0.48)


pytestmark = pytest.mark.usefixtures("decoder")


@pytest.fixture(scope="module")
def listed() -> bytes:
    return rds("list", "--soft", data=SYMBOLS)


@pytest.fixture
def path(tmp_path: Path) -> Path:
    (tmp_path / "it.soft").write_bytes(SYMBOLS)
    return tmp_path / "it.soft"


def source_of(text: bytes, **options: Any) -> Listing:
    return Listing(io.BytesIO(text), b"", Reading(**options))


def written(source: Any) -> bytes:
    return text_of(joined(source.chunks())) + totals_text(source.totals)


def refused(text: bytes, **options: Any) -> str:
    with pytest.raises(Fault) as error:
        read(text, **options)
    return str(error.value)


# ---- listings


def test_a_listing_is_read_and_written_again(listed: bytes) -> None:
    assert written(source_of(listed)) == listed
    # The masks of one flip and of two are those of bursts, most others are not.
    assert len({line[-7:] for line in listed.decode().splitlines() if "~" in line}) > 30


def test_totals_that_do_not_fit(listed: bytes) -> None:
    lines = listed.splitlines(keepends=True)
    names = [line.split(b",")[1].decode() for line in lines[-6:]]
    assert names == ["soft1", "soft2", "soft3", "soft4", "soft5", "soft6"]
    for count in range(1, 6):
        assert "cut off" in refused(b"".join(lines[:-count]))
        without = b"".join([*lines[: -count - 1], *lines[-count:]])
        assert f"the total '{names[-count - 1]}' is missing before it" in refused(without)
    more = lines[-6].replace(b"soft1,", b"soft1,1")
    assert "the total 'corrected' is " in refused(b"".join([*lines[:-6], more, *lines[-5:]]))
    # Those of hard decisions have no such masks.
    assert "rows are missing or too many" in refused(b"".join(lines[:-6]))
    assert "a second listing begins here" in refused(listed + lines[-18])


def test_sessions_of_both_kinds(listed: bytes) -> None:
    hard = rds("list", data=encode(words(4, 30)))
    source = source_of(listed + hard + listed + hard, sessions=True)
    seen = [
        (source.session, source.totals_before and bool(source.totals_before.soft)) for _ in source.chunks()
    ]
    assert (
        [soft for number, soft in seen] == [None, True, False, True]
        and source.totals
        and not source.totals.soft
    )


def test_bursts_and_masks_of_a_part() -> None:
    rows = joined(lock(26, [(1, 2, 3, 4)] * 3))
    groups = rows["what"] == GROUP
    rows["kind3"][groups], rows["burst3"][groups] = CORRECTED, 0x2000021
    text = text_of(rows) + totals_text(totals_of(rows))
    assert "the total 'corrected' is 0, but the rows have 3" in refused(text)
    assert (read(text_of(rows), unfinished_ok=True) == rows).all()


# ---- recordings


@pytest.mark.parametrize(
    "rules, options", [(Rules(margin=32), ""), (Rules(2, 8, 40, 0, 1), "--reach 8 --loss 40 --margin 1")]
)
def test_a_recording_and_its_listing_are_the_same_rows(rules: Rules, options: str, path: Path) -> None:
    source = open_source(str(path), Reading(rules=rules))
    assert source.length == len(SYMBOLS) - 1
    assert written(source) == rds("list", "--soft", *options.split(), data=SYMBOLS)
    assert source.length == len(SYMBOLS) - 1


@pytest.mark.parametrize("margin", [1, 127])
def test_the_least_and_the_greatest_margin(margin: int, path: Path) -> None:
    listed = rds("list", "--soft", "--margin", margin, data=SYMBOLS)
    of_listing = output("errors", "--length", len(SYMBOLS) - 1, data=listed)
    assert output("errors", "--soft", "--margin", margin, path) == of_listing


@pytest.mark.parametrize("bits", [0, 1, 26, 5000, len(SYMBOLS) - 1])
def test_a_number_of_bits(bits: int, path: Path, monkeypatch: pytest.MonkeyPatch) -> None:
    """Of 5,000 the last symbol is in the next chunk."""
    for module in (opening, recording):
        monkeypatch.setattr(module, "CHUNK", 2500)
    gaps, words_ = ([(30, 40)], ["--gaps", "30-40"]) if bits > 40 else ([], [])
    source = open_source(str(path), Reading(rules=Rules(margin=32), bits=bits, gaps=gaps))
    assert written(source) == rds("list", "--soft", "--bits", bits, *words_, data=SYMBOLS)


@pytest.mark.parametrize("seed", range(8))
def test_streams_that_end_anywhere(seed: int) -> None:
    """Pushes and ends of any length, and some confidences of 0: rows, and flips by their number."""
    chance = random.Random(seed)
    given = bytes(0 if chance.random() < 0.03 else byte for byte in SYMBOLS)[
        : chance.choice([0, 1, 60, 900, 20001])
    ]
    rules = Rules(2, chance.randint(1, 8), chance.randint(1, 64), 0, chance.randint(1, 127))
    decoder, parts, at = decoder_of(soft=SOFT_JOBS)[0](rules), [], 0
    while at < len(given):
        size = chance.choice([1, 8, 777, 5000])
        assert decoder.place_after(len(given[at : at + size])) == max(0, min(at + size, len(given)) - 1)
        parts.append(decoder.push(given[at : at + size]))
        at += size
    last, totals = decoder.finish()
    options = ("--margin", rules.margin, "--reach", rules.reach, "--loss", rules.loss)
    assert text_of(joined([*parts, last])) + totals_text(totals) == rds(
        "list", "--soft", *options, data=given
    )


def test_an_end_beside_an_acquisition_or_a_loss() -> None:
    """Inside a byte rows of symbols come up to seven bits late, and the last ones at the end."""
    options, given = ("--soft", "--loss", 3), SYMBOLS[3:1000]
    heads = [line.split(b",")[:2] for line in rds("list", *options, data=given).splitlines()]
    places = {name: int(place) for name, place in reversed(heads) if name in (b"acquired", b"lost")}
    assert len(places) == 2 and not {(place + 1) % 8 for place in places.values()} & {0}
    for end in (place + beside for place in places.values() for beside in (1, 2, 3, 9)):
        decoder = decoder_of(soft=SOFT_JOBS)[0](Rules(loss=3, margin=32))
        rows = [decoder.push(given[:end])]
        last, totals = decoder.finish()
        text = text_of(joined([*rows, last])) + totals_text(totals)
        assert text == rds("list", *options, data=given[:end]), end


def test_errors_have_a_column_more(path: Path, listed: bytes, tmp_path: Path) -> None:
    text = output("errors", "--soft", "--every", 5, path)
    (tmp_path / "it.csv").write_bytes(listed)
    assert output("errors", "--every", 5, "--length", len(SYMBOLS) - 1, tmp_path / "it.csv") == text
    rows = list(csv.DictReader(io.StringIO(text)))
    assert [*rows[0]] == "begin_s end_s sent valid corrected soft lost no_sync bad_percent".split()
    cells = [
        cell for line in listed.decode().splitlines() if line[:5] == "group" for cell in line.split(",")[4:]
    ]
    counts = (
        sum(":" in cell and "~" not in cell for cell in cells),
        sum("~" in cell for cell in cells),
        cells.count("lost"),
    )
    assert tuple(sum(int(row[name]) for row in rows) for name in ("valid", "soft", "lost")) == counts
    assert {row["corrected"] for row in rows} == {"0"} and min(counts) > 5
    assert "soft" not in output("errors", data=encode(words(4, 30)))


def test_hours_of_a_watch_tell_it_by_their_names(listed: bytes, tmp_path: Path) -> None:
    """The files of a session but the last one have no totals. A page counts apart what each session corrected."""
    rows, bits, heads = listed[: listed.index(b"total,")], bytearray(encode(words(4, 30))), []
    bits[100] ^= 1
    for is_soft in (True, False):
        path = tmp_path / Hour(0, 0, is_soft=is_soft).name
        path.write_bytes(rows)
        heads.append(output("errors", path).partition("\n")[0])
        assert ('<th scope="col">soft</th>' in output("report", path)) == is_soft
    assert [head.split(",")[4:6] for head in heads] == [["corrected", "soft"], ["corrected", "lost"]]
    (tmp_path / "both.csv").write_bytes(listed + rds("list", data=bytes(bits)) + listed)
    page = output("report", tmp_path / "both.csv")
    sent, valid, corrected, soft, *_ = re.findall(r"<td>(\d+)</td>", page.partition("<caption>Blocks")[2])
    assert corrected == "1" and int(soft) == 2 * rows.count(b"~")


COMMANDS = ("info", "json", "table", "groups", "types", "programmes", "corrected", "outages", "report")


@pytest.mark.parametrize("command", COMMANDS)
def test_each_command_takes_symbols_and_their_listing(command: str, listed: bytes) -> None:
    given = (("--soft", SYMBOLS), (f"--length {len(SYMBOLS) - 1}", listed))
    assert len({output(command, *words_.split(), data=data) for words_, data in given}) == 1


MISUSES = [
    ("--soft --burst 2", 2, "--burst and --soft contradict each other"),
    ("--soft --hex", 2, "--hex and --soft contradict each other"),
    ("--margin 32", 2, "--margin needs --soft"),
    ("--soft --margin 0", 2, "'0' is no margin from 1 to 127"),
    ("--soft --margin 128", 2, "'128' is no margin from 1 to 127"),
    (f"--soft --bits {len(SYMBOLS)}", 1, f"refused 4 BitsPastBytes: the input has {len(SYMBOLS) - 1} bits"),
]


@pytest.mark.parametrize("options, status, fault", MISUSES)
def test_misuses(options: str, status: int, fault: str, path: Path) -> None:
    done = run("errors", *options.split(), path)
    assert (done.status, done.out) == (status, "") and fault in done.err


def test_symbols_that_look_like_text_and_a_listing(listed: bytes) -> None:
    assert said("errors", "--soft", data=b"AAAA BBBB CCCC DDDD\n" * 2)[1:] == ["0,0,1,0,0,0,0,1,100.00"]
    assert output("table", "--soft", data=listed) == output("table", data=listed)


def test_a_check_of_the_last_seconds(path: Path) -> None:
    # However slow the machine is, nothing was written later.
    os.utime(path, (4e9, 4e9))
    done = run("check", "--soft", "--last", 10, path)
    assert "age=0." in done.out and "corrected=" in done.out
    # Bytes of bits would be of noise.
    assert run("check", "--last", 10, path).status == 2
