"""The commands info and json, from the built program's bits to their output."""

from __future__ import annotations

import csv
import io
import json
import os
import re
import subprocess
import unicodedata
from typing import Any, Dict, List, Tuple

import pytest

from conftest import COMMAND, STATION, encode, monitor, rds
from made import output as said
from rds_monitor.content import info
from rds_monitor.rows.listing import TOTAL_NAMES
from sent import Words, clock, eon, group, label, name, oda, segments, tags, text

LONG = b"The first text, of the standard's length for once, all 64 of it."


def bits(*groups: Words) -> bytes:
    """Groups as bits. Sync is acquired in the first, so it is not whole."""
    return encode([group("15A", 0x1F, 0x2020, 0x2020), *groups])


def rows(output: str) -> List[Dict[str, str]]:
    return list(csv.DictReader(io.StringIO(output)))


def lines(output: str) -> List[Dict[str, Any]]:
    return [json.loads(line) for line in output.splitlines()]


STATION_GROUPS = [
    *name(b"PAXO 318", [0xE301, 0xFA01, 0xCCCD]),
    *(*text(LONG), label(0, 0xE0), label(3, 8), clock(61128, 1, 30, 4)),
    *(*text(b"The second one,\rends", 1), clock(61128, 22, 59, -7)),
    *name(b"PAXO 318", flags=24, kind="0B"),
    *text(b"A text of 32 characters in all..", kind="2B"),
]
# What the station says in them, in order.
CHANGES = f"""
pi=D318; tp=yes; pty=10 Pop music; ta=no; ms=music; af=87.6 0.153 107.9; ps=PAXO 318; rt={LONG.decode()};
ecc=E0; language=08 German; ct=2026-03-29T03:30+02:00; rt=The second one,; ct=2026-03-29T19:29-03:30; ta=yes;
rt=A text of 32 characters in all.."""


def test_changes_as_csv() -> None:
    found = rows(said("info", "--csv", data=bits(*STATION_GROUPS)))
    wanted = re.split(r";\s", CHANGES.strip())
    items = {change.partition("=")[0] for change in wanted}
    assert [f"{row['item']}={row['value']}" for row in found if row["item"] in items] == wanted
    assert {row["pi"] for row in found} == {"D318"}


def test_an_item_that_is_not_sent_any_more_has_an_empty_value() -> None:
    found = rows(said("info", "--csv", data=bits(label(0, 0xE0, 15 << 11 | 20 << 6 | 30), label(0, 0xE0))))
    assert [row["value"] for row in found if row["item"] == "pin"] == ["15 20:30", ""]


def test_csv_and_json_and_listing_agree() -> None:
    data = bits(*STATION_GROUPS)
    table = rows(said("info", "--csv", data=data))
    objects = lines(said("info", "--json", data=data))
    assert [(entry["pi"], entry["item"], entry["text"], entry["bit"]) for entry in objects] == [
        (row["pi"], row["item"], row["value"], int(row["bit"])) for row in table
    ]
    assert said("info", "--json", data=rds("list", data=data)) == said("info", "--json", data=data)


def test_the_summary() -> None:
    found = said("info", data=bits(*STATION_GROUPS))
    assert found.startswith("D318 PAXO 318\n") and "2 changes)" in found
    wanted = """
  PTY              10 Pop music  (since 0.088 s)
  TA               yes  (since 2.627 s, 1 change)
  Country          Germany
  AF               87.6 0.153 107.9
  CT               2026-03-29T19:29-03:30  (since 2.540 s, 1 change)
  RT               A text of 32 characters in all..  (since"""
    assert [line for line in wanted.strip("\n").splitlines() if line not in found] == []
    two = said("info", data=bits(*name(b"ONE"), *name(b"TWO", pi=0xD319)))
    assert [line for line in two.splitlines() if line and line[0] != " "] == ["D318 ONE", "D319 TWO"]


def test_times_are_in_the_last_columns() -> None:
    """To the millisecond. The first group counts from bit 104 on, and a bit takes 1 / 1187.5 s."""
    found = said("info", "--csv", "--start", "2026-03-29T00:30:00Z", data=bits(*name(b"ONE"))).splitlines()
    assert found[0] == "time_s,pi,item,value,bit,time_utc"
    assert found[1] == "0.088,D318,pi,D318,104,2026-03-29T00:30:00.088Z"


@pytest.mark.parametrize(
    "item, shown",
    [
        *(
            ("ps", "PS"),
            ("ms", "Music/speech"),
            ("oda:CD46", "ODA CD46"),
            ("rt_plus:item.title", "RT+ item.title"),
        ),
        *(("eon:D312.ps", "EON D312 PS"), ("eon:D312.af", "EON D312 AF")),
        *(("eon:D312.mapped:98.1", "EON D312 mapped 98.1"), ("af:89.3", "AF 89.3")),
    ],
)
def test_an_item_has_a_name_for_a_reader(item: str, shown: str) -> None:
    assert info.label(item) == shown


def test_no_station() -> None:
    listing = b"".join(b"total,%s,0,-,-,-,-,-\n" % name.encode() for name in TOTAL_NAMES)
    assert said("info", data=listing) == "no station: no PI was received in valid blocks\n"
    assert said("info", "--csv", data=listing) == "time_s,pi,item,value,bit\n"


def test_rbds() -> None:
    assert "10 Country" in said("info", "--rbds", data=bits(*name(b"PAXO 318")))
    assert '"10 Country"' in said("json", "--rbds", data=bits(*name(b"PAXO 318")))
    found = lines(said("json", "--redsea", "--rbds", data=bits(*name(b"PAXO 318"), eon(13, 17 << 11))))
    assert found[-1]["prog_type"] == "Country"
    assert found[-1]["other_network"]["prog_type"] == "Soft rhythm and blues"


# ---- strings from strangers

HOSTILE = {
    "quotes": (b'"a",b\'c\r', '"a",b\'c'),
    "markup": (b"<script>alert(1)</script>&amp;\r", "<script>alert(1)</script>&amp;"),
    "formula": (b"=1+2;--\r", "=1+2;--"),
    "escape": (b"\x1b[2J\x1b]0;x\x07\r", "\\x1b[2J\\x1b]0;x\\x07"),
    "nul": (b"a\0b\r", "a\\x00b"),
    "backslash": (b"a\\x1b\r", "a\\\\x1b"),
}


def told(item: str, data: bytes) -> List[Any]:
    return [entry["value"] for entry in lines(said("json", data=data)) if entry.get("item") == item]


COMMANDS = ("info", "info --csv", "json", "json --redsea")


def shown_anywhere(data: bytes) -> str:
    return "".join(said(*words.split(), data=data) for words in COMMANDS)


@pytest.mark.parametrize("which", HOSTILE)
def test_hostile_texts_are_shown_as_text(which: str) -> None:
    content, shown = HOSTILE[which]
    data = bits(*text(content))
    assert [row["value"] for row in rows(said("info", "--csv", data=data)) if row["item"] == "rt"] == [shown]
    assert shown in said("info", data=data)
    assert told("rt", data) == [content[:-1].decode("latin-1")]
    assert "\x1b" not in shown_anywhere(data) and "\0" not in shown_anywhere(data)


MARKS = {
    "64 combining marks": "e" + "\u0301" * 64,
    "right to left": "\u202egnp.exe\u2069",
    "a line separator": "a\u2028b",
    "a tag": "a\U000e0041b",
}


@pytest.mark.parametrize("which", MARKS)
def test_hostile_marks_in_utf8_are_shown_as_text(which: str) -> None:
    content = MARKS[which].encode()[:120] + b"\r"
    data = bits(oda(0x6552, "12A", 1), *segments("12A", content, 32))
    assert told("ert", data) == [content[:-1].decode("utf-8", "replace")]
    shown = shown_anywhere(data).replace("\n", "")
    assert not {*map(unicodedata.category, shown)} & {"Cc", "Cf", "Zl", "Zp"} and "\u0301" * 3 not in shown


def test_output_is_utf8_whatever_the_locale() -> None:
    environment, data = {**os.environ, "LC_ALL": "C", "PYTHONUTF8": "0"}, bits(*name(b"K\x97ln \x24\xab "))
    told = subprocess.check_output([*COMMAND, "info", "--csv"], input=data, env=environment)
    assert "Köln ¤$" in told.decode("utf-8")


# ---- json


def test_a_stream_is_told_as_it_comes(station_listing: bytes) -> None:
    """Events of rows that were written are told while the stream goes on."""
    command = [*COMMAND, "json", "--unfinished"]
    with subprocess.Popen(command, stdin=subprocess.PIPE, stdout=subprocess.PIPE) as process:
        assert process.stdin and process.stdout
        process.stdin.write(station_listing[:8000])
        process.stdin.flush()
        found = [json.loads(process.stdout.readline()) for _ in range(15)]
        assert found[1]["item"] == "pi" and process.poll() is None
        process.stdin.close()
        assert process.stdout.read() and process.wait() == 0


def test_events_in_order() -> None:
    found = lines(said("json", STATION))
    assert found[0] == {"event": "acquired", "bit": 51, "time_s": 0.043, "number": 2}
    first = dict(event="content", bit=104, time_s=0.088, pi="D393", item="pi", before=None)
    assert found[1] == {**first, "value": "D393", "text": "D393"}
    assert [entry["bit"] for entry in found] == sorted(entry["bit"] for entry in found)


def test_values_of_json_are_numbers_and_texts_for_a_reader() -> None:
    """And the value before, by each event."""
    data = bits(*name(b"ONE"), group("6A", 0, pty=11))
    found = [entry for entry in lines(said("json", data=data)) if entry.get("item") in ("pty", "ta", "ps")]
    assert [(entry["value"], entry["before"], entry["text"]) for entry in found] == [
        *((10, None, "10 Pop music"), (False, None, "no"), ("ONE", None, "ONE")),
        (11, 10, "11 Rock music"),
    ]


def block_text(block: Any) -> str:
    if block is None or "lost" in block:
        return "lost" if block else "none"
    return f"{block['offset']}:{block['word']}" + (f"~{block['burst']}" if "burst" in block else "")


def test_rows_are_those_of_the_listing() -> None:
    listing = rds("list", data=STATION.read_bytes()).decode().splitlines()
    found = lines(said("json", "--rows", STATION))
    assert len(found) == len(listing)
    for row, one in zip(listing, found):
        fields = row.split(",")
        assert one["event"] == fields[0]
        if fields[0] == "group":
            blocks = map(block_text, one["blocks"])
            assert [str(one["bit"]), str(one["type"]), one["version"], *blocks] == fields[1:]
        elif fields[0] == "total":
            assert [one["name"], str(one["value"])] == fields[1:3]


def test_rows_of_damaged_groups() -> None:
    listing = (
        "acquired,25,1,-,-,-,-,-\ngroup,0,-,?,A:D318,lost,lost,D:5041\n"
        "group,104,0,A!,A:D318~0000001,B:0D49,C:D318,D:5041\n"
        "group,208,-,?,A:D318,none,none,none\nlost,233,-,-,-,-,-,-\n"
    )
    found = lines(said("json", "--rows", "--unfinished", data=listing.encode()))
    lost, first, last = {"lost": True}, {"offset": "A", "word": "D318"}, {"offset": "D", "word": "5041"}
    group_0 = dict(event="group", bit=0, time_s=0.0, type=None, version=None, conflict=False)
    assert found[1] == {**group_0, "blocks": [first, lost, lost, last]}
    assert found[2]["conflict"] and found[2]["version"] == "A"
    assert found[2]["blocks"][:2] == [{**first, "burst": "0000001"}, {"offset": "B", "word": "0D49"}]
    assert found[3]["blocks"][1:] == [None, None, None]
    assert found[4] == {"event": "lost", "bit": 233, "time_s": 0.196}


PIN = 15 << 11 | 20 << 6 | 30


def redsea(*groups: Words, data: bytes = b"") -> List[Dict[str, Any]]:
    return lines(said("json", "--redsea", "--unfinished", data=data or bits(*groups)))


def test_redsea_has_a_line_per_group_with_its_keys() -> None:
    groups = [*name(b"PAXO 318", [0xE301, 0xFA01, 0xCCCD]), label(0, 0xE0, PIN), label(3, 8)]
    groups += [*text(b"Song by Singer\r"), oda(0x4BD7, "11A"), tags(0, 1, (1, 0, 3), (4, 8, 5))]
    groups.append(clock(61128, 1, 30, 4))
    found = redsea(*groups)
    assert len(found) == len(groups)
    every = {"pi": "0xD318", "tp": True, "prog_type": "Pop music"}
    assert all({**entry, **every} == entry for entry in found)
    assert [entry["group"] for entry in found[:5]] == ["0A"] * 4 + ["1A"]
    first = {**every, "group": "0A", "ta": False, "is_music": True, "di": {"stereo": False}}
    assert found[3] == {**first, "ps": "PAXO 318", "alt_frequencies_a": [87600, 153, 107900]}
    song = [{"content-type": "item_title", "data": "Song"}, {"content-type": "item_artist", "data": "Singer"}]
    wanted = {
        4: dict(country="de", has_linkage=False, prog_item_started={"day": 15, "time": "20:30"}),
        5: dict(language="German"),
        9: dict(radiotext="Song by Singer", rt_ab="A"),
        10: dict(open_data_app=dict(oda_group="11A", app_name="RadioText Plus (RT+)", message=0)),
        11: dict(radiotext_plus=dict(item_running=True, item_toggle=0, tags=song)),
        12: dict(clock_time="2026-03-29T03:30:00+02:00"),
    }
    assert {k: {key: found[k][key] for key in keys} for k, keys in wanted.items()} == wanted


def test_json_has_the_bytes_of_channels_and_in_house_data() -> None:
    """Each change of them; info has none."""
    one, other = group("5A", 3, 0xFF01, 0x0203), group("5A", 3, 4, 5)
    data = bits(*name(b"PAXO 318"), one, group("6A", 1, 2, 3), one, other, oda(0x1234, "6A"))
    told = [(entry["item"], entry["value"]) for entry in lines(said("json", data=data)) if "item" in entry]
    found = [pair for pair in told if "_data" in pair[0] or pair[0] == "ih"]
    assert found == [
        ("tdc_data:3", "FF 01 02 03"),
        *(("ih", True), ("ih_data", "01 0002 0003")),
        ("tdc_data:3", "00 04 00 05"),
        *(("ih", None), ("ih_data", None)),
    ]
    assert "FF 01" not in said("info", data=data)


NO_HOUR = 16 << 11 | 24 << 6 | 1
SCOPES = ["international", "national", "regional", "urban"]
# Groups that are rare, with the keys of each.
RARE: List[Tuple[Words, Dict[str, Any]]] = [
    (clock(61128, 1, 30, 0), {"clock_time": "2026-03-29T01:30:00Z"}),
    (label(1, 0x123), {"has_linkage": False, "tmc_id": 0x123}),
    (label(3, 0x75), {"has_linkage": False, "language": "Chinese"}),
    (label(3, 0x44), {"has_linkage": False, "language": "44"}),
    (label(3, 0x40, NO_HOUR, 1), {"has_linkage": True, "language": "Background sound, clean feed"}),
    (oda(0xCD47, "8A", 0x003F), {"tmc": (0, True, SCOPES)}),
    (oda(0xCD46, "8A", 0x0041), {"tmc": (1, False, [SCOPES[3]])}),
    (group("6A", 0x1F, 0x1235, 0x5679), {"in_house_data": [0x1F, 0x1235, 0x5679]}),
    (group("6B", 3, 0xD318, 0x5678), {"in_house_data": [3, 0x5678]}),
    (eon(4, 0xE101), {"alt_frequencies": [87600]}),
    (eon(5, 0x0102), {"kilohertz": 87700}),
    (eon(8, 0x01CC), {"kilohertz": 107900}),
    (eon(9, 0x0110), {"kilohertz": 531}),
    (eon(10, 0x0110), {}),
    (eon(12, 0x8001), {"has_linkage": True, "linkage_set": 1}),
    (eon(12, 0xF800), {"has_linkage": True, "linkage_set": 0x800}),
    (eon(12, 0xF000), {"has_linkage": True}),
    (eon(12, 0x7FFF), {"has_linkage": False}),
    (eon(13, 0), {"ta": False, "prog_type": "No PTY"}),
    (eon(14, PIN), {"prog_item_number": PIN, "prog_item_started": {"day": 15, "time": "20:30"}}),
    (eon(14, NO_HOUR), {"prog_item_number": NO_HOUR}),
    (group("6A", 0, pty=0), {"in_house_data": [0, 0, 0], "prog_type": "No PTY"}),
    (group("7A", 0, tp=0, pty=17), {"tp": False, "prog_type": "Finance"}),
]


def test_redsea_has_the_keys_of_groups_that_are_rare() -> None:
    """Those of another network are in an object of their own, with its PI and TP."""
    found = redsea(*name(b"PAXO 318"), *(words for words, _ in RARE))[4:]
    for entry, (words, keys) in zip(found, RARE):
        kind, every = words[1] >> 12, {"pi": "0xD318", "tp": True, "prog_type": "Pop music"}
        every["group"] = f"{kind}{'AB'[words[1] >> 11 & 1]}"
        if kind == 14:
            every["other_network"] = {"pi": "0xD312", "tp": False, **keys}
        elif kind == 3:
            table, is_on_others, scope = keys["tmc"]
            info = {"is_encrypted": table == 0, "location_table": table, "scope": scope}
            every["tmc"] = {"system_info": {**info, "is_on_alt_freqs": is_on_others}}
            application = {"oda_group": "8A", "app_name": "RDS-TMC: ALERT-C", "message": words[2]}
            every["open_data_app"] = application
        else:
            every.update({**keys, **({"prog_item_number": words[3]} if kind == 1 and words[3] else {})})
        assert entry == every
    assert len(found) == len(RARE)


def test_redsea_has_lists_by_method_b() -> None:
    found = redsea(*name(b"PAXO 318", [0xE512, 0x1278, 0x8E12]))[3]["alt_frequencies_b"]
    assert found == {"tuned_frequency": 89300, "same_programme": [99500], "regional_variants": [101700]}


def test_redsea_has_channels_and_messages_of_traffic() -> None:
    """And a service of traffic messages with its own assignment alone."""
    message = group("8A", 0b01101, 1 << 15 | 1 << 14 | 3 << 11 | 701, 4321)
    channels = group("5A", 3, 0xFF01, 0x0203), group("5B", 31, 0, 0x0203)
    found = redsea(*name(b"ONE"), oda(0xCD46, "8A", 0x0045), oda(0x4BD7, "11A"), *channels, message)[4:]
    assert ["tmc" in line for line in found] == [True, False, False, False, True]
    assert [line["transparent_data"] for line in found[2:4]] == [
        {"address": 3, "raw": "FF 01 02 03"},
        {"address": 31, "raw": "02 03"},
    ]
    told = dict(event_codes=[701], location=4321, extent="-3", diversion_advised=True)
    assert found[4]["tmc"] == {"message": told}


def test_redsea_has_the_last_of_two_lists_by_method_b() -> None:
    found = redsea(*name(b"PAXO 318", [0xE34B, 0x0F4B, 0xE30F, 0x0F4B]))[3]["alt_frequencies_b"]
    assert found == {"tuned_frequency": 89000, "same_programme": [95000], "regional_variants": []}


def test_redsea_has_a_ps_with_the_last_segment_and_a_list_in_version_a() -> None:
    """Groups 15B have a segment of the decoder identification alone."""
    found = redsea(*name(b"PAXO 318", [0xE16A]), *name(b"PAXO 318", kind="0B"), group("15B", 3, 0, 0xF803))
    assert [k for k, line in enumerate(found) if "ps" in line] == [3, 7]
    assert [k for k, line in enumerate(found) if "alt_frequencies_a" in line] == [3]


def test_redsea_has_a_ps_as_soon_as_it_is_whole() -> None:
    sent = name(b"PAXO 318")
    assert [line.get("ps") for line in redsea(*sent[1:], *sent)] == [None] * 6 + ["PAXO 318"]


def test_redsea_has_no_line_of_a_programme_that_does_not_count() -> None:
    first, second = (group("6A", 0, pi=pi) for pi in (0xD319, 0xD31A))
    data = bits(*name(b"ONE"), first, *name(b"ONE"), second, *name(b"TWO", pi=0xD31A))
    listing = [row for row in rds("list", data=data).decode().splitlines() if not row.startswith("total")]
    once = next(k for k, row in enumerate(listing) if "A:D319" in row)
    listing[once] = listing[once].rsplit(",", 1)[0] + ",lost"
    found = redsea(data="\n".join([*listing, ""]).encode())
    assert [entry["pi"] for entry in found] == 8 * ["0xD318"] + 5 * ["0xD31A"]
    assert [entry.get("ps") for entry in found if entry["pi"] == "0xD31A"] == [None, None, None, None, "TWO"]


def test_redsea_has_nothing_of_the_programme_before() -> None:
    found = redsea(*text(b"A text\r"), *text(b"Another text\r", pi=0xD31A))
    assert [entry.get("radiotext") for entry in found] == [None, "A text", None, None, None, "Another text"]


def test_a_cut_listing_is_refused(station_listing: bytes) -> None:
    done = monitor("info", data=station_listing[:-200])
    assert done.returncode == 1 and done.stderr.startswith(b"rds-monitor info: ")
