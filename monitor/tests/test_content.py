"""Every group type: groups built by `rds encode`, decoded by the library, and the values that must be told of them."""

from __future__ import annotations

import re
from typing import Any, Dict, List, NamedTuple, Sequence, Tuple

import numpy
import pytest

import sent
from conftest import encode
from rds_monitor.content import columns, evidence, received
from rds_monitor.content.decoder import ITEMS, Decoder, Event
from rds_monitor.content.looks import name_of
from rds_monitor.content.networks import FrequencyList
from rds_monitor.rows.items import CORRECTED, LOSS, LOST
from rds_monitor.rows.opening import open_source
from sent import Words, clock, eon, eon_name, events_of, group, label, name, oda, segments, tags, text, told
from sent import Damage, rows_of, type_name

TEXT_32 = "A text of 32 characters in all.."
LONG = b"The first text, of the standard's length for once, all 64 of it."


def decoded(groups: Sequence[Words], tmp_path: Any, **options: Any) -> List[Event]:
    """The events of groups, as bits. Sync is acquired in the first group, which has no content, since it is not whole."""
    path = tmp_path / "groups.bin"
    path.write_bytes(encode([group("15A", 0x1F, 0x2020, 0x2020, pi=groups[0][0]), *groups]))
    decoder = Decoder(**options)
    return [event for rows in open_source(str(path)).chunks() for event in decoder.feed(rows)]


class Case(NamedTuple):
    """Groups, and the items with the values that hold after them."""

    groups: List[Words]
    held: Dict[str, Any]
    options: Dict[str, Any] = {}
    texts: Dict[str, str] = {}


DI = ("di_stereo", "di_artificial_head", "di_compressed", "di_dynamic_pty")
# The RadioText that the tags below are of, a song's title and artist.
RT_PLUS, SONG, TITLE, ARTIST = oda(0x4BD7, "11A"), text(b"Song by Singer\r"), (1, 0, 3), (4, 8, 5)
TAGGED = {"rt_plus:item.title": "Song", "rt_plus:item.artist": "Singer"}
SERVICE = dict(location_table=1, alternative_frequencies=True, mode="basic", service=11)
SERVICE["scope"] = ["national", "regional", "urban"]
MESSAGE = dict(event=701, location=4321, direction="negative", extent=3)
# The longest list of frequencies.
OF_25, ALL_OF_25 = [0xF901, *range(0x0203, 0x1A00, 0x0202)], [*range(87600, 90001, 100)]
TRAFFIC = segments("8A", b"Traffic1", 2, 0x14)

CASES: Dict[str, Case] = {
    "PI, TP, PTY": Case(
        [group("6A", 0)], {"pi": "D318", "tp": True, "pty": 10}, texts={"tp": "yes", "pty": "10 Pop music"}
    ),
    "no TP, no PTY": Case([group("6A", 0, tp=0, pty=0)], {"tp": False, "pty": 0}, texts={"pty": "0 None"}),
    # The standard's own example is KGTB.
    "call letters": Case([group("6A", 0, pi=0x21C7)], {"pi": "21C7", "call_letters": "KGTB"}, {"rbds": True}),
    "no call letters but of RBDS": Case([group("6A", 0, pi=0x21C7)], {"call_letters": None}),
    "PTY of RBDS": Case([group("6A", 0)], {"pty": 10}, {"rbds": True}, {"pty": "10 Country"}),
    "alarm, no TP": Case([group("6A", 0, tp=0, pty=31)], {"tp": False, "pty": 31}, texts={"pty": "31 Alarm"}),
    "0A: PS": Case(name(b"PAXO 318"), {"ps": "PAXO 318"}),
    "0A: PS of other characters": Case(name(b"K\x97ln \x24\xab "), {"ps": "Köln ¤$"}),
    "0B: PS": Case(name(b"PAXO 318", kind="0B"), {"ps": "PAXO 318"}),
    "0A: music, no TA": Case(name(b"PAXO 318", flags=8), {"ms": "music", "ta": False}),
    "0B: speech, TA": Case(name(b"PAXO 318", flags=16, kind="0B"), {"ms": "speech", "ta": True}),
    "15B: TA, music": Case([group("15B", 0x18, 0, 0xFD58)], {"ms": "music", "ta": True}),
    "0A: DI, all": Case(name(b"PAXO 318", flags=12), dict.fromkeys(DI, True)),
    "0A: DI, none": Case(name(b"PAXO 318"), dict.fromkeys(DI, False)),
    "DI: segment 0 is dynamic PTY": Case([group("0B", 4)], {"di_dynamic_pty": True}),
    "DI: segment 1 is compressed": Case([group("0B", 5)], {"di_compressed": True}),
    "DI: segment 2 is artificial head": Case([group("15B", 6)], {"di_artificial_head": True}),
    "DI: segment 3 is stereo": Case([group("0B", 7)], {"di_stereo": True}),
    "1A: PIN": Case([label(0, 0, 31 << 11 | 23 << 6 | 59)], {"pin": "31 23:59"}),
    "1B: PIN": Case([group("1B", 0, 0, 1 << 11 | 5)], {"pin": "01 00:05"}),
    "1A: no PIN": Case([label(0, 0, 0)], {"pin": None}),
    "1A: no hour 24": Case([label(0, 0, 15 << 11 | 24 << 6)], {"pin": None}),
    "1A: ECC and country": Case(
        [label(0, 0xE0)], {"ecc": "E0", "country": "de", "linkage": False}, texts={"country": "Germany"}
    ),
    "1A: linkage": Case([label(0, 0xE0, linkage=1)], {"linkage": True}),
    "1A: ECC of no country": Case([label(0, 0xEF)], {"ecc": "EF", "country": None}),
    "1A: TMC identification": Case([label(1, 0xABC)], {"tmc_id": "ABC"}),
    "1A: paging identification": Case([label(2, 0x123)], {"paging_id": "123"}),
    "1A: language": Case([label(3, 8)], {"language": "08"}, texts={"language": "08 German"}),
    "1A: language of Asia": Case([label(3, 0x75)], {"language": "75"}, texts={"language": "75 Chinese"}),
    "1A: language of no name": Case([label(3, 0x44)], {"language": "44"}, texts={"language": "44"}),
    "1A: broadcaster's bits": Case([label(6, 0xFED)], {"broadcaster_bits": "FED"}),
    "1A: EWS channel": Case([label(7, 0x00A)], {"ews_channel": "00A"}),
    "2A: RT": Case(text(LONG), {"rt": LONG.decode(), "rt_ab": "A"}),
    "2A: RT with an end": Case(text(b"The second one,\rends", 1), {"rt": "The second one,", "rt_ab": "B"}),
    "2A: RT without an end": Case(3 * text(b"Twelve signs"), {"rt": "Twelve signs"}),
    "2A: RT without an end, once": Case(text(b"Twelve signs"), {"rt": None}),
    "2A: line break, headline, soft hyphen": Case(text(b"a\nb\x0bc\x1fd\r"), {"rt": "a b cd"}),
    "2B: RT": Case(text(TEXT_32.encode(), kind="2B"), {"rt": TEXT_32}),
    "2B: RT with an end": Case(text(b"A short one\r", kind="2B"), {"rt": "A short one"}),
    "3A: ODA": Case(
        [oda(0x4BD7, "11A")],
        {"oda:4BD7": {"group": "11A", "name": "RadioText Plus (RT+)"}},
        texts={"oda:4BD7": "RadioText Plus (RT+) in 11A"},
    ),
    "3A: ODA in no group": Case(
        [group("3A", 0, 0, 0x1234)],
        {"oda:1234": {"group": None, "name": None}},
        texts={"oda:1234": "unknown application in no group of its own"},
    ),
    "3A: ODA with a fault": Case(
        [group("3A", 31, 0, 0xCD46)],
        {"oda:CD46": {"group": "fault", "name": "RDS-TMC: ALERT-C"}},
        texts={"oda:CD46": "RDS-TMC: ALERT-C temporary fault"},
    ),
    "4A: CT": Case([clock(61128, 1, 30, 4)], {"ct": "2026-03-29T03:30+02:00"}),
    "4A: CT west of Greenwich": Case([clock(61128, 22, 59, -7)], {"ct": "2026-03-29T19:29-03:30"}),
    "4A: CT on a later day there": Case([clock(61128, 23, 59, 2)], {"ct": "2026-03-30T00:59+01:00"}),
    "4A: CT past 2038": Case([clock(88069, 0, 0, 0)], {"ct": "2100-01-01T00:00+00:00"}),
    "4A: no hour 24": Case([clock(61128, 24, 0, 0)], {"ct": None}),
    "4A: no minute 60": Case([clock(61128, 0, 60, 0)], {"ct": None}),
    "4A: the first day": Case([clock(40587, 0, 0, 0)], {"ct": "1970-01-01T00:00+00:00"}),
    "4A: no day": Case([clock(40586, 0, 0, 0)], {"ct": None}),
    "5A: TDC": Case([group("5A", 3, 0xFF01, 0x0203)], {"tdc:3": True}),
    "5B: TDC": Case([group("5B", 31, 0, 0x0203)], {"tdc:31": True}),
    "5A: bytes": Case([group("5A", 3, 0xFF01, 0x0203)], {"tdc_data:3": "FF 01 02 03"}, {"data": True}),
    "5B: bytes": Case(
        [group("5B", 31, 0, 0x0203), group("5B", 0, 0, 0x0405)],
        {"tdc_data:31": "02 03", "tdc_data:0": "04 05"},
        {"data": True},
    ),
    "5A: another application, bytes": Case(
        [group("5A", 3, 1, 2), oda(0x1234, "5A"), group("5A", 3, 1, 3)], {"tdc_data:3": None}, {"data": True}
    ),
    "6A: data": Case([group("6A", 0x1F, 0x1234, 0x5678)], {"ih_data": "1F 1234 5678"}, {"data": True}),
    "6B: data": Case([group("6B", 3, 0, 0x5678)], {"ih_data": "03 5678"}, {"data": True}),
    "6A: data of another application": Case(
        [group("6A", 3, 1, 2), oda(0x1234, "6A"), group("6A", 3, 1, 3)], {"ih_data": None}, {"data": True}
    ),
    "5B: an application that comes later, bytes": Case(
        [group("5B", 3, 0, 2), oda(0x1234, "5B")], {"tdc:3": None, "tdc_data:3": None}, {"data": True}
    ),
    "6B: data of an application that comes later": Case(
        [group("6B", 3, 0, 2), oda(0x1234, "6B")], {"ih": None, "ih_data": None}, {"data": True}
    ),
    "6A: in-house data if not asked for": Case([group("6A", 3, 1, 2)], {"ih": True, "ih_data": None}),
    "6B: in-house": Case([group("6B", 3, 1, 2)], {"ih": True}),
    "7A: radio paging": Case([group("7A", 3, 1, 2)], {"rp": True}),
    "13A: enhanced paging": Case([group("13A", 3, 1, 2)], {"erp": True}),
    "8A: TMC": Case([group("8A", 3, 1, 2)], {"tmc": True}),
    "8A: TMC by CD47": Case([oda(0xCD47, "8A"), group("8A", 3, 1, 2)], {"tmc": True}),
    "8A: TMC service": Case(
        [oda(0xCD46, "8A", 0x0067), oda(0xCD46, "8A", 0x62C0)],
        {"tmc_service": SERVICE},
        texts={"tmc_service": "location table 1, service 11, national regional urban"},
    ),
    "8A: TMC service by two variants of no service": Case(
        [oda(0xCD46, "8A", 0x0074), oda(0xCD46, "8A", 0x8140), oda(0xCD46, "8A", 0xC140)],
        {
            "tmc_service": dict(
                location_table=1, alternative_frequencies=True, mode="enhanced", scope=["national"]
            )
        },
        texts={"tmc_service": "location table 1, national"},
    ),
    "8A: TMC message in one group": Case(
        [group("8A", 0b01101, 1 << 15 | 1 << 14 | 3 << 11 | 701, 4321)],
        {"tmc_message": {**MESSAGE, "diversion": True, "duration": 5}},
        texts={"tmc_message": "event 701 at location 4321, extent -3, duration 5, diversion advised"},
    ),
    "8A: TMC message in several groups": Case(
        [group("8A", 0b00010, 1 << 15 | 2 << 11 | 2047, 65535), group("8A", 0b00010, 1 << 14 | 77, 78)],
        {"tmc_message": dict(event=2047, location=65535, direction="positive", extent=2)},
        texts={"tmc_message": "event 2047 at location 65535, extent +2"},
    ),
    "8A: TMC message without a diversion": Case(
        [group("8A", 0b01101, 1 << 14 | 3 << 11 | 701, 4321)],
        {"tmc_message": {**MESSAGE, "diversion": False, "duration": 5}},
        texts={"tmc_message": "event 701 at location 4321, extent -3, duration 5"},
    ),
    "8A: TMC message of another application": Case(
        [oda(0x1234, "8A"), group("8A", 0b01101, 701, 4321)], {"tmc_message": None}
    ),
    "8A: TMC provider, with other variants between": Case(
        [TRAFFIC[0], group("8A", 0x13, 1, 2), group("8A", 0x16, 1, 2), TRAFFIC[1]],
        {"tmc_provider": "Traffic1"},
    ),
    "8A: another application": Case([oda(0x1234, "8A"), *TRAFFIC], {"tmc": None, "tmc_provider": None}),
    "5A: another application": Case([oda(0x1234, "5A"), group("5A", 3, 1, 2)], {"tdc:3": None}),
    "7A: an application that comes later": Case([group("7A", 3, 1, 2), oda(0x1234, "7A")], {"rp": None}),
    "9A: EWS": Case([group("9A", 0x1F, 0x1234, 0x5678)], {"ews": "1F 1234 5678"}),
    "9A: another application": Case([oda(0x1234, "9A"), group("9A", 0x1F, 0x1234, 0x5678)], {"ews": None}),
    "10A: PTYN": Case(type_name(b"Football"), {"ptyn": "Football"}),
    "10A: PTYN, another": Case(type_name(b"Football") + type_name(b"Handball", 1), {"ptyn": "Handball"}),
    "14A: PS": Case(eon_name(b"OTHER FM"), {"eon:D312.ps": "OTHER FM", "eon:D312.tp": False}),
    "14A: PS of two networks at once": Case(
        [entry for both in zip(eon_name(b"OTHER FM"), eon_name(b"THIRD FM", 0xD313)) for entry in both],
        {"eon:D312.ps": "OTHER FM", "eon:D313.ps": "THIRD FM"},
    ),
    "14A: TP": Case([eon(15, 0, tp=1)], {"eon:D312.tp": True}),
    "14A: AF": Case(
        [eon(4, 0xE301), eon(4, 0x3264), eon(4, 0xE0CD, 0xD313), *(eon(4, pair, 0xD314) for pair in OF_25)],
        {"eon:D312.af": [87600, 92500, 97500], "eon:D313.af": [], "eon:D314.af": ALL_OF_25},
        texts={"eon:D312.af": "87.6 92.5 97.5", "eon:D313.af": "none"},
    ),
    "14A: mapped frequencies": Case(
        [
            *(eon(5, 0x0132), eon(6, 0x0264), eon(7, 0x6A96), eon(8, 0xCCCC), eon(8, 0x05CD), eon(8, 0x0600)),
            *(eon(9, 0x0110), eon(9, 0x0287), eon(9, 0x0388), eon(9, 0x0400), eon(9, 0x0501)),
        ],
        {
            **{f"eon:D312.mapped:{at}": to for at, to in ((87.6, 92500), (87.7, 97500), (98.1, 102500))},
            **{"eon:D312.mapped:107.9": 107900, "eon:D312.mapped:88.0": None, "eon:D312.mapped:88.1": None},
            **{"eon:D312.mapped:87.6.am": 531, "eon:D312.mapped:87.7.am": 1602},
            **{"eon:D312.mapped:87.8.am": None, "eon:D312.mapped:87.9.am": None},
            "eon:D312.mapped:88.0.am": 153,
        },
    ),
    "14A: a frequency that is mapped to several": Case(
        3 * [eon(5, 0x6A96), eon(8, 0x6AA5), eon(6, 0x6A9B), eon(7, 0x6AA0)],
        {"eon:D312.mapped:98.1": [102500, 103000, 103500, 104000]},
        texts={"eon:D312.mapped:98.1": "102.5 103.0 103.5 104.0"},
    ),
    "14A: linkage": Case(
        [eon(12, 0xC123), eon(12, 0x4123, 0xD313)],
        {
            "eon:D312.linkage": dict(linked=True, extended_generic=True, international=False, set=0x123),
            "eon:D313.linkage": dict(linked=False, extended_generic=True, international=False, set=0x123),
        },
        texts={"eon:D312.linkage": "linked, set 123"},
    ),
    "14A: linkage between countries": Case(
        [eon(12, 0x1043)],
        {"eon:D312.linkage": dict(linked=False, extended_generic=False, international=True, set=0x043)},
        texts={"eon:D312.linkage": "not linked, set 043, international"},
    ),
    "14A: PTY and TA": Case(
        [eon(13, 17 << 11 | 1)],
        {"eon:D312.pty": 17, "eon:D312.ta": True},
        texts={"eon:D312.pty": "17 Finance"},
    ),
    "14A: PTY of RBDS": Case(
        [eon(13, 17 << 11)],
        {"eon:D312.pty": 17},
        {"rbds": True},
        {"eon:D312.pty": "17 Soft rhythm and blues"},
    ),
    "14A: PIN": Case([eon(14, 2 << 11 | 7 << 6 | 8)], {"eon:D312.pin": "02 07:08"}),
    "14B: TA": Case([group("14B", 0x18, 0, 0xD312)], {"eon:D312.tp": True, "eon:D312.ta": True}),
    "14B: no TA": Case([group("14B", 0x10, 0, 0xD312)], {"eon:D312.tp": True, "eon:D312.ta": False}),
    "15A: long PS": Case(segments("15A", "Straße, täglich\r".encode(), 8), {"lps": "Straße, täglich"}),
    "15A: 32 bytes": Case(segments("15A", TEXT_32.encode()), {"lps": TEXT_32}),
    "15A: a long PS filled up": Case(segments("15A", b"Jazz\0\0", 8), {"lps": "Jazz"}),
    "RT+ with blanks": Case([RT_PLUS, *SONG, tags(1, 1, (1, 0, 4), (4, 7, 6))], TAGGED),
    "RT+": Case(
        [RT_PLUS, *SONG, tags(1, 1, TITLE, ARTIST)], {**TAGGED, "rt_plus_running": True, "rt_plus_toggle": 1}
    ),
    "RT+ before its text": Case(
        [oda(0x4BD7, "12A"), SONG[0], tags(0, 0, TITLE, ARTIST, kind="12A"), *SONG[1:]],
        {**TAGGED, "rt_plus_running": False},
    ),
    "RT+ of a text before": Case(
        [RT_PLUS, *SONG, tags(1, 1, TITLE), *text(b"Other words\r", 1)],
        {"rt_plus:item.title": "Song", "rt": "Other words"},
    ),
    "RT+ in a group that is not its own": Case([*SONG, tags(1, 1, TITLE)], {"rt_plus:item.title": None}),
    "RT+ past the end": Case([RT_PLUS, *text(b"So\r"), tags(1, 1, (1, 40, 3))], {"rt_plus:item.title": None}),
    "eRT": Case(
        [oda(0x6552, "13A", 1), *segments("13A", "Ελληνικά 中文\r".encode())],
        {"ert": "Ελληνικά 中文", "erp": None},
    ),
    "eRT in UCS-2": Case(
        [oda(0x6552, "12A", 0), *segments("12A", "Žluťoučký kůň\r".encode("utf-16-be"))],
        {"ert": "Žluťoučký kůň"},
    ),
    **{
        f"eRT of 128 bytes in {coding}": Case(
            [oda(0x6552, "12A", number), *segments("12A", whole.decode().encode(coding))],
            {"ert": whole.decode()},
        )
        for number, (coding, whole) in enumerate((("utf-16-be", LONG), ("utf-8", 2 * LONG)))
    },
    "RT+ for eRT": Case(
        [
            *(oda(0x6552, "13A", 1), oda(0x4BD8, "12A")),
            *segments("13A", "Τραγούδι, Φωνή\r".encode()),
            tags(0, 1, (1, 0, 7), (4, 10, 3), kind="12A"),
        ],
        {
            **{"ert_plus:item.title": "Τραγούδι", "ert_plus:item.artist": "Φωνή"},
            **{"ert_plus_running": True, "ert_plus_toggle": 0},
        },
    ),
    "RT+ of tags that begin alike, and of others that end alike": Case(
        [RT_PLUS, *SONG, tags(1, 1, TITLE, (2, 0, 13)), tags(1, 1, ARTIST, (2, 0, 13))],
        {**TAGGED, "rt_plus:item.album": "Song by Singer"},
    ),
    "RT+ of another item": Case(
        [RT_PLUS, *SONG, tags(0, 1, TITLE, ARTIST), *text(b"Other words\r", 1), tags(1, 1, (1, 0, 4))],
        {"rt_plus:item.title": "Other", "rt_plus:item.artist": None},
    ),
    "RT+ of two tags of one class": Case(
        [RT_PLUS, *text(b"Anna and Berta\r"), tags(1, 1, (4, 0, 3), (4, 9, 4))],
        {"rt_plus:item.artist": "Anna", "rt_plus:item.artist:2": "Berta"},
    ),
    "RT+ of one tag of a class after two": Case(
        [RT_PLUS, *text(b"Anna and Berta\r"), tags(1, 1, (4, 0, 3), (4, 9, 4)), tags(1, 1, (4, 9, 4))],
        {"rt_plus:item.artist": "Berta", "rt_plus:item.artist:2": None},
    ),
    **{
        f"RT+ {more} of nothing after {count} groups of a text": Case(
            [RT_PLUS, *SONG[:count], tags(0, 0, (0, 0, 0), (0, 0, more))],
            {"rt_plus_running": False, "rt_plus_toggle": 0},
        )
        for more in (0, 1)
        for count in (0, 1, 4)
    },
    "RT+ over the end": Case(
        [RT_PLUS, *SONG, tags(1, 1, TITLE, (4, 8, 6))],
        {"rt_plus:item.title": "Song", "rt_plus:item.artist": None},
    ),
    "RT+ in no group of its own": Case(
        [group("3A", 0, 0, 0x4BD7), *SONG, group("0A", 1, 0x2000, 0x2046)],
        {"rt_plus:item.title": None, "rt_plus_running": None},
    ),
    "RT+ in a group that carries none": Case(
        [oda(0x4BD7, "2B"), *SONG, tags(1, 1, TITLE, kind="2B")],
        {"rt_plus:item.title": None},
        texts={"oda:4BD7": "RadioText Plus (RT+) in 2B, which carries none"},
    ),
    "RT+ that moved": Case(
        [RT_PLUS, oda(0x4BD7, "12A"), *SONG, tags(1, 1, TITLE), tags(1, 1, ARTIST, kind="12A")],
        {"rt_plus:item.title": None, "rt_plus:item.artist": "Singer"},
    ),
    "names filled up by zeros": Case(
        [*name(b"PAX\0\0\0\0\0"), *type_name(b"Jazz\0\0\0\0"), *eon_name(b"OTHER\0\0\0")],
        {"ps": "PAX", "ptyn": "Jazz", "eon:D312.ps": "OTHER"},
    ),
    "1A: language of background sound": Case(
        [label(3, 0x40)], {"language": "40"}, texts={"language": "40 Background sound, clean feed"}
    ),
    "eRT of another application": Case([oda(0x1234, "12A", 1), *segments("12A", b"Text\r")], {"ert": None}),
    "DAB link": Case(
        [oda(0x0093, "12A"), group("12A", 4 | 220352 // 16 >> 16, 220352 // 16 & 0xFFFF, 0x10A5)],
        {"dab:220.352": {"ensemble": "10A5", "channel": "11C", "mode": "I"}},
        texts={"dab:220.352": "ensemble 10A5, channel 11C, mode I"},
    ),
    "DAB service": Case([oda(0x0093, "12A"), group("12A", 0x10, 0, 0xD310)], {"dab_service:D310": True}),
    "one frequency": Case(name(b"PAXO 318", [0xE16A]), {"af": [98100]}, texts={"af": "98.1"}),
    "pairs before any head": Case(
        name(b"PAXO 318", [0x1E32, 0x465A, 0xE10A]), {"af": [88500]}, {"data": True}
    ),
    "no list": Case(name(b"PAXO 318", [0xE001]), {"af": []}, texts={"af": "none"}),
    "a list of 25": Case(
        [group("0A", k % 4, pair, 0x2020) for k, pair in enumerate(OF_25)], {"af": ALL_OF_25}
    ),
    **{
        f"a list in {turns} turns": Case(
            [
                group("0A", 0, pair)
                for k in range(turns)
                for pair in (0xE101 + 0x200 * turns, 0x0203 + 0x0202 * k)
            ],
            {"af": [*range(87600, 87700 + 200 * turns, 100)] if turns == 8 else None},
        )
        for turns in (8, 9)
    },
    "a list that does not end": Case(name(b"PAXO 318", [0xE501, 0x6A02, 0x7CCD]), {"af": None}),
    "long and medium wave": Case(
        name(b"PAXO 318", [0xE401, 0xFA0F, 0xFA10, 0xFA87]),
        {"af": [87600, 279, 531, 1602]},
        texts={"af": "87.6 0.279 0.531 1.602"},
    ),
    "method B": Case(
        name(b"PAXO 318", [0xE512, 0x1278, 0x8E12]),
        {"af:89.3": {"tuned": 89300, "same": [99500], "regional": [101700]}},
        texts={"af:89.3": "89.3: 99.5; regional 101.7"},
    ),
    "method B of two transmitters": Case(
        name(b"PAXO 318", [0xE34B, 0x0F4B, 0xE30F, 0x0F4B]),
        {
            "af:95.0": {"tuned": 95000, "same": [89000], "regional": []},
            "af:89.0": {"tuned": 89000, "same": [95000], "regional": []},
        },
    ),
}
# The standard's own example of a list by method B, clause 6.2.1.6.4.
EXAMPLE = name(b"PAXO 318", [0xEB12, 0x1278, 0x128E, 0x0D12]) + name(b"PAXO 318", [0x9712, 0x120F])
CASES["method B, the standard's example"] = Case(
    EXAMPLE, {"af:89.3": {"tuned": 89300, "same": [88800, 99500, 101700], "regional": [89000, 102600]}}
)


@pytest.mark.parametrize("title", CASES)
def test_values_that_hold(title: str, tmp_path: Any) -> None:
    case = CASES[title]
    decoder_events = decoded(case.groups, tmp_path, **case.options)
    held: Dict[str, Any] = {}
    texts: Dict[str, str] = {}
    for event in decoder_events:
        assert event.before == held.get(event.item) and event.value != event.before
        held[event.item], texts[event.item] = event.value, event.text
    assert {item: held.get(item) for item in case.held} == case.held
    assert {item: texts.get(item) for item in case.texts} == case.texts
    # Nothing else is told than what all groups say, or groups of the same type.
    assert {event.pi for event in decoder_events} == {case.groups[0][0]}


def test_every_item_and_group_type_has_a_case() -> None:
    """The items of the help and those of the cases, by their names alone; the help's own are among those of the cases."""

    def bare(item: str) -> str:
        return re.sub(r"^eon:[^.]+|:.*", "", item)

    words = re.sub(r"\(.*?\)", "", ITEMS).split()
    items = {item for case in CASES.values() for item in case.held}
    assert {bare(item) for item in items} == {bare(word) for word in words}
    assert items >= {re.sub(r"^\.", "eon:D312.", word) for word in words}
    kinds = {name_of(words[1] >> 11) for case in CASES.values() for words in case.groups}
    assert kinds >= {*"0A 0B 1A 1B 2A 2B 3A 4A 5A 5B 6A 6B 7A 8A 9A 10A 11A 12A 13A 14A 14B 15A 15B".split()}


def values(groups: Sequence[Words], item: str) -> List[Any]:
    return told(events_of(groups), item)


def test_a_change_of_ps_is_an_event_with_its_place() -> None:
    groups = name(b"PAXO 318") + name(b"PAXO NEW") + name(b"PAXO NEW")
    found = [event for event in events_of(groups) if event.item == "ps"]
    # The second name is told with the last segment of its first turn.
    assert [(event.value, event.before, event.place) for event in found] == [
        ("PAXO 318", None, 3 * 104),
        ("PAXO NEW", "PAXO 318", 7 * 104),
    ]


@pytest.mark.parametrize("size", [1, 2, 3, 99])
def test_corrected_blocks_alone_say_nothing(size: int) -> None:
    """However rows are cut into chunks. Block 2 of two groups has another programme type, and then that of a valid one."""
    groups = [group("6A", n, pty=11 if n in (3, 4, 6) else 10) for n in range(9)]
    damage = [(n, Damage(2, CORRECTED)) for n in (3, 4)]
    rows, decoder = rows_of(groups, damage), Decoder()
    events = [event for at in range(0, len(rows), size) for event in decoder.feed(rows[at : at + size])]
    assert [(event.place, event.value) for event in events if event.item == "pty"] == [
        (0, 10),
        (6 * 104, 11),
        (7 * 104, 10),
    ]


def test_another_programme_comes_after_the_one_before_it() -> None:
    """No value of the programme before is one of the other."""
    events = events_of([group("6A", 0), group("6A", 0, pi=0xD319)])
    found = [(event.value, event.before) for event in events if event.item in ("pi", "pty")]
    assert found == [("D318", None), (10, None), ("D319", "D318"), (10, None)]


@pytest.mark.parametrize("more", [0, 1])
def test_corrected_tags_of_nothing_say_nothing(more: int) -> None:
    """All bits of their groups are 0, but for the last one."""
    groups = [RT_PLUS, tags(0, 0, (0, 0, 0), (0, 0, more))]
    assert told(events_of(groups, [(1, Damage(4, CORRECTED))]), "rt_plus_running") == []
    assert told(events_of(groups), "rt_plus_running") == [False]


@pytest.mark.parametrize("acquired, heard", [([0], [10, 11]), ([0, 1], [10])])
@pytest.mark.parametrize("loss", [False, True])
def test_groups_without_pi_are_of_no_programme_after_an_acquisition(
    acquired: List[int], heard: List[int], loss: bool
) -> None:
    """However rows are cut into chunks, and if sync was lost before any group came."""
    groups = [group("6A", 0), *3 * [group("6A", 0, pty=11)]]
    rows = rows_of(groups, [(number, Damage(1, LOST)) for number in (1, 2, 3)], acquired)
    if loss and len(acquired) > 1:
        rows = numpy.insert(rows, 3, rows[2])
        rows["what"][3] = LOSS
    for size in range(1, len(rows) + 1):
        decoder = Decoder()
        events = [event for at in range(0, len(rows), size) for event in decoder.feed(rows[at : at + size])]
        assert told(events, "pty") == heard


SAME = text(b"The same\r", 0) + text(b"The same\r", 1) + text(b"The same\r", 0)
A_B_C, A_B_D = text(b"AAAABBBBCCCC\r"), text(b"AAAABBBBDDDD\r", 1)
A_X_C = text(b"AAAAXXXXCCCC\r")
FOOTBALL, FOOTHILL = type_name(b"Football"), type_name(b"Foothill", 1)
NUMBER, NO_HOUR, NO_MINUTE = 15 << 11 | 20 << 6 | 30, 1 << 11 | 24 << 6, 17 << 11 | 60
NO_DAY = 20 << 6 | 31
TMC = group("8A", 1, 2, 3)
# Groups, an item, and all of its values in their order.
SEQUENCES: Dict[str, Tuple[List[Words], str, List[Any]]] = {
    "the flag of RT turned": (SAME, "rt_ab", ["A", "B", "A"]),
    "the same text under another flag": (SAME, "rt", ["The same"]),
    "the end of a text of 8": (10 * text(b"Traffic\r"), "rt", ["Traffic"]),
    "the end of a text of 6": (10 * text(b"Talks\r"), "rt", ["Talks"]),
    "the end of a text of 16": (10 * text(b"0123456789ABCDE\r"), "rt", ["0123456789ABCDE"]),
    "signs after the end of a text": (6 * text(b"Hello\r  "), "rt", ["Hello"]),
    "a text that becomes its first segment": (
        *(3 * text(b"Abcdefgh") + 3 * text(b"Abcd"), "rt"),
        ["Abcdefgh", "Abcd"],
    ),
    "a text without an end that grows": (
        *(6 * text(b"Abcdefgh") + 6 * text(b"AbcdefghIjkl"), "rt"),
        ["Abcdefgh", "AbcdefghIjkl"],
    ),
    "a long-lasting text without an end that grows": (
        *(900 * text(b"Abcdefgh") + 900 * text(b"AbcdefghIjkl"), "rt"),
        ["Abcdefgh", "AbcdefghIjkl"],
    ),
    "a text after a turned flag": (A_B_C + A_B_D[2:] + A_B_D, "rt", ["AAAABBBBCCCC", "AAAABBBBDDDD"]),
    "half a text after a turned flag": (A_B_C + A_B_D[2:], "rt", ["AAAABBBBCCCC"]),
    "a text that changes without a flag": (
        *(A_B_C + A_X_C[1:3] + A_B_C[3:] + A_X_C, "rt"),
        ["AAAABBBBCCCC", "AAAAXXXXCCCC"],
    ),
    "half a PTYN after a turned flag": (FOOTBALL + FOOTHILL[1:], "ptyn", ["Football"]),
    "a PTYN after a turned flag": (FOOTBALL + FOOTHILL, "ptyn", ["Football", "Foothill"]),
    "a PIN that is none, and one that ends": (
        *([label(0, 0, number) for number in (NUMBER, NO_HOUR, NO_MINUTE, NUMBER, NO_DAY)], "pin"),
        ["15 20:30", None],
    ),
    "the same of another network": (
        *([eon(14, number) for number in (NUMBER, NO_HOUR, NO_MINUTE, NUMBER, NO_DAY)], "eon:D312.pin"),
        ["15 20:30", None],
    ),
    "the same tags of a text that changes without a flag": (
        *(
            [RT_PLUS, *SONG, tags(1, 1, TITLE), *text(b"Work by Singer\r"), tags(1, 1, TITLE)],
            "rt_plus:item.title",
        ),
        ["Song", "Work"],
    ),
    "two tags in turn": (
        [RT_PLUS, *SONG, *(tags(1, 1, one) for one in (TITLE, (1, 8, 5), TITLE))],
        "rt_plus:item.title",
        ["Song", "Singer", "Song"],
    ),
    "a part that comes after another one of its message has changed": (
        *([label(0, 0xE0), label(0, 0xE1), label(3, 8)], "language"),
        ["08"],
    ),
    "paging in groups that an application has left": (
        *([oda(0x1234, "7A"), group("7A", 3, 1, 2), oda(0x1234, "9B"), group("7A", 3, 1, 2)], "rp"),
        [True],
    ),
    "RT+ in groups that another application had, and has left for others": (
        [oda(0x1234, "13A"), oda(0x5678, "11A"), RT_PLUS, oda(0x5678, "12A"), *SONG, tags(1, 1, TITLE)],
        "rt_plus:item.title",
        ["Song"],
    ),
    "TMC whose application is told": ([TMC, oda(0xCD46, "8A"), TMC], "tmc", [True]),
    "TMC whose groups another application has": ([TMC, oda(0x1234, "8A"), TMC], "tmc", [True, None]),
    "TA of 14B and of variant 13": (
        *([eon(13, 17 << 11), group("14B", 0x18, 0, 0xD312), eon(13, 17 << 11)], "eon:D312.ta"),
        [False, True, False],
    ),
    "halves of a name in two versions": (
        name(b"PAXO 318")[:2] + name(b"PAXO 318", kind="0B")[2:],
        "ps",
        ["PAXO 318"],
    ),
    "a frequency that is mapped to two": (
        *(9 * [eon(5, 0x6A96), eon(6, 0x6A9B)], "eon:D312.mapped:98.1"),
        [102500, [102500, 103000]],
    ),
    "names of two networks": (name(b"PAXO 318") + eon_name(b"OTHER FM"), "ps", ["PAXO 318"]),
}


@pytest.mark.parametrize("title", SEQUENCES)
def test_values_in_their_order(title: str) -> None:
    groups, item, expected = SEQUENCES[title]
    assert values(groups, item) == expected


# ---- the bounds of the rules by which names and texts are told, at each and past it


def without(groups: Sequence[Words], gone: Sequence[int]) -> sent.Damages:
    """The characters of these groups are lost."""
    return [(number, sent.Damage(block, sent.LOST)) for number in gone for block in (3, 4)]


PAXO = ["PAXO 318"]


@pytest.mark.parametrize("turns, names", [(4, PAXO), (5, [])])
def test_for_how_many_turns_a_pair_of_a_name_counts(turns: int, names: List[str]) -> None:
    """The first of them has one pair, and the last one the others. It begins a minute after sync."""
    groups = (turns + 1) * name(b"PAXO 318")
    gone = {*range(1, len(groups))} - {4 * turns - k for k in (1, 2, 3)}
    rows = sent.rows_of(groups, without(groups, sorted(gone)))
    rows["place"] += numpy.uint64(71250)
    assert told(Decoder().feed(rows), "ps") == names


@pytest.mark.parametrize("turns, names", [(4, ["PAXO 318"]), (5, ["BAXO 318"])])
def test_for_how_many_turns_a_pair_of_a_name_contradicts_another(turns: int, names: List[str]) -> None:
    """The others came a turn before another first one: they belong to the name of the old one, or of the new one."""
    groups = turns * name(b"PAXO 318") + 2 * name(b"BAXO 318")
    gone = {*range(1, len(groups))} - {4 * turns - k for k in range(4)}
    rows = sent.rows_of(groups, without(groups, sorted(gone)))
    rows["place"] += numpy.uint64(71250)
    assert told(Decoder().feed(rows), "ps") == names


@pytest.mark.parametrize("bits, texts", [(60 * 1187.5, ["A text"]), (60 * 1187.5 + 1, [])])
def test_for_how_long_a_pair_of_a_text_counts(bits: float, texts: List[str]) -> None:
    """The first turn has the first segment, and the last one the other, before the group at that bit."""
    count = int(bits // 208) * 2 + 1
    groups = text(b"A text\r") * (count // 2) + text(b"A text\r")[:1]
    rows = sent.rows_of(groups, without(groups, [*range(1, count - 2), count - 1]))
    rows["place"][2:] += numpy.uint64(bits - 104 * (count - 1))
    assert told(Decoder().feed(rows), "rt") == texts


@pytest.mark.parametrize("bits, names", [(10 * 1187.5, PAXO), (10 * 1187.5 + 1, [*PAXO, None, *PAXO])])
def test_after_how_long_an_outage_a_name_is_told_again(bits: float, names: List[Any]) -> None:
    """If more than ten seconds are from the begin of one group to that of the next; the last groups come in another chunk, too."""
    rows = sent.rows_of(2 * name(b"PAXO 318"))
    rows["place"][5:] += numpy.uint64(bits - 104)
    for cut in (7, len(rows)):
        decoder = Decoder(lapses=True)
        assert told(decoder.feed(rows[:cut]) + decoder.feed(rows[cut:]), "ps") == names


LONG_ONCE = text(LONG)


@pytest.mark.parametrize("singles, is_told", [(2, True), (3, False)])
def test_how_many_pairs_of_a_turn_may_be_corrected(singles: int, is_told: bool) -> None:
    """The last 16 pairs are valid."""
    wrong = [(number, sent.Damage(4, sent.CORRECTED)) for number in range(2, 2 + singles)]
    assert bool(told(events_of(LONG_ONCE, wrong), "rt")) == is_told


@pytest.mark.parametrize(
    "singles, valid, is_told", [(2, 14, True), (2, 13, False), (1, 6, True), (1, 5, False)]
)
def test_how_many_pairs_have_to_be_valid_for_single_ones(singles: int, valid: int, is_told: bool) -> None:
    """Of the last 16 pairs, all of which came in the turn before too, but for the single ones."""
    lost = [(15 - k, sent.Damage(4, sent.LOST)) for k in range(singles)]
    last = sorted(range(32, 64), key=lambda pair: (pair % 2 == 0 or pair < 64 - 2 * singles, pair))
    wrong = [(pair // 2, sent.Damage(3 + pair % 2, sent.CORRECTED)) for pair in last if pair >= 48][
        : 16 - valid
    ]
    assert bool(told(events_of(LONG_ONCE * 2, lost + wrong), "rt")) == is_told


def test_the_last_pairs_before_a_text_count() -> None:
    """Those of a text that is said again and again, of which earlier ones are corrected: two of the next text may be, too."""
    bad = [*((number, block) for number in range(24, 32) for block in (3, 4)), (41, 4), (42, 4)]
    groups = 20 * text(b"A text\r") + text(b"Another one\r", 1)
    events = events_of(groups, [(number, Damage(block, CORRECTED)) for number, block in bad])
    assert told(events, "rt") == ["A text", "Another one"]


@pytest.mark.parametrize("size", [1, 99])
@pytest.mark.parametrize("steps, texts", [(5, ["This text has 23 signs."]), (6, [])])
def test_when_a_turn_of_a_text_can_have_been_missed(steps: int, texts: List[str], size: int) -> None:
    """The sixth segment comes as late as the turn of five segments takes, or a segment later."""
    rows, decoder = rows_of(text(b"This text has 23 signs.\r")), Decoder()
    rows["place"][6] += numpy.uint64(104 * (steps - 1))
    events = [event for at in range(0, len(rows), size) for event in decoder.feed(rows[at : at + size])]
    assert told(events, "rt") == texts


@pytest.mark.parametrize("turns, texts", [(343, ["Of 11 signs"]), (344, ["Of 11 signs", "Of 11 si"])])
def test_how_long_a_text_that_ends_early_is_kept(turns: int, texts: List[str]) -> None:
    """In a minute are 685 groups of 104 bits. Its last segment came that long before the last turn, or two groups more."""
    groups = 12 * text(b"Of 11 signs\r")
    assert told(events_of(groups + turns * groups[:2]), "rt") == texts


@pytest.mark.parametrize("segments", [(3, 4), (4, 5)])
def test_a_text_without_an_end_is_not_cut_where_groups_are_lost(segments: Sequence[int]) -> None:
    groups = 4 * text(b"A text that has no end")
    gone = [number for number in range(len(groups)) if number % 6 in segments]
    lost = [(number, sent.Damage(block, sent.LOST)) for number in gone for block in (3, 4)]
    assert told(events_of(groups, lost), "rt") == []
    assert told(events_of(groups), "rt") == ["A text that has no end"]
    decoder, rows = Decoder(), sent.rows_of(groups, lost)
    assert sent.told([event for k in range(len(rows)) for event in decoder.feed(rows[k : k + 1])], "rt") == []


def test_signs_after_an_end_count_since_the_last_cut() -> None:
    """A text ends early once, and signs after its end come. Then the end is in doubt, and is none: they belong to the next text."""
    first, longer = text(b"ABCDEF\r"), text(b"ABCDEFGHIJK\r")
    doubted = text(b"ABCDEFxx")[1]
    groups = [*(20 * first), first[0], *first, longer[2], first[0], doubted, *longer[:2], longer[0]]
    wrong = [(len(groups) - 4, sent.Damage(4, sent.CORRECTED))]
    assert told(events_of(groups, wrong), "rt") == ["ABCDEF", "ABCDEFGHIJK"]


# ---- lists of frequencies that change


def lists(pairs: Sequence[int], size: int = 999) -> List[Any]:
    """All that are told of pairs that come in chunks of this size."""
    rows = rows_of([group("0A", 8 | k % 4, pair, 0x2020) for k, pair in enumerate(pairs)])
    decoder = Decoder()
    events = [event for at in range(0, len(rows), size) for event in decoder.feed(rows[at : at + size])]
    return [event.value for event in events if event.item.startswith("af")]


def by_b(tuned: int, same: Sequence[int], regional: Sequence[int] = ()) -> Dict[str, Any]:
    return {"tuned": tuned, "same": [*same], "regional": [*regional]}


A, ALL_OF_A = [0xE50A, 0x1E32, 0x465A], [88500, 90500, 92500, 94500, 96500]
CHANGED, ALL_CHANGED = [0xE50A, 0x1E32, 0x4664], [88500, 90500, 92500, 94500, 97500]
B, B_CHANGED, OTHER = [0xE512, 0x1278, 0x8E12], [0xE512, 0x127D, 0x8E12], [0xE30F, 0x0F4B]
ALL_OF_B, ALL_B_CHANGED = by_b(89300, [99500], [101700]), by_b(89300, [100000], [101700])
LISTS = {
    "method A changes one entry": (10 * A + 10 * CHANGED + 10 * A, [ALL_OF_A, ALL_CHANGED, ALL_OF_A]),
    "method A changes within two turns": (3 * A + 2 * CHANGED, [ALL_OF_A, ALL_CHANGED]),
    # The second chunk of 61 rows, of which one is an acquisition, has the last two turns.
    **{
        f"method A changes its pair {pair:04X} after its first turn": (
            A + 19 * [other if one == pair else one for one in A] + 2 * A,
            [ALL_OF_A, found, ALL_OF_A],
        )
        for pair, other, found in (
            (0x465A, 0x4664, ALL_CHANGED),
            (0x1E32, 0x1E3C, [88500, 90500, 93500, 94500, 96500]),
        )
    },
    "method A with a code that is assigned to nothing": (
        [0xE40A, 0x1E32, 0xDF12],
        [[88500, 90500, 92500, 89300]],
    ),
    "method A of one frequency, by heads that follow each other up and down": (
        [0xE102, 0xE103, 0xE105, 0xE104],
        [[87700], [87800], [88000], [87900]],
    ),
    "method A grows": (5 * A + 5 * [0xE60A, 0x1E32, 0x465A, 0x64CD], [ALL_OF_A, [*ALL_OF_A, 97500]]),
    "method A grows and comes back": (
        10 * A + 10 * [0xE60A, 0x1E32, 0x465A, 0x64CD] + 10 * A,
        [ALL_OF_A, [*ALL_OF_A, 97500], ALL_OF_A],
    ),
    "method B changes one entry": (10 * B + 10 * B_CHANGED + 10 * B, [ALL_OF_B, ALL_B_CHANGED, ALL_OF_B]),
    # In chunks of four the second pair comes in another one than its head.
    "method B of two transmitters, of which a pair has both": (
        3 * [0xE312, 0x1250, 0xE378, 0x1278],
        [by_b(89300, [95500]), by_b(99500, [89300])],
    ),
    # The order of a pair alone says whether its frequency is of a regional variant.
    "method B becomes regional": (
        10 * [0xE312, 0x1278] + 10 * [0xE312, 0x7812],
        [by_b(89300, [99500]), by_b(89300, [], [99500])],
    ),
    # A list by method A of three frequencies, or of two, would have such a pair.
    "a pair without the tuned frequency in a list by method B": (
        3 * [0xE312, 0x7812] + 3 * [0xE312, 0x3040, 0x7812],
        [by_b(89300, [], [99500])],
    ),
    "a pair of medium wave in a list by method B": (
        3 * [0xE212, 0x7812] + 3 * [0xE212, 0xFA12, 0x7812],
        [by_b(89300, [], [99500])],
    ),
    "method B of two transmitters changes one entry": (
        10 * [*B, *OTHER] + 10 * [*B_CHANGED, *OTHER],
        [ALL_OF_B, by_b(89000, [95000]), ALL_B_CHANGED],
    ),
}


@pytest.mark.parametrize("title", LISTS)
def test_a_list_that_changes(title: str) -> None:
    """Of the station, or by method A of another network."""
    pairs, found = LISTS[title]
    assert lists(pairs) == lists(pairs, 1) == lists(pairs, 4) == lists(pairs, 61) == found
    if "method A" in title:
        assert values([eon(4, pair) for pair in pairs], "eon:D312.af") == found


def test_the_same_frequencies_in_another_order_are_the_same_list() -> None:
    """The list begins anew after pairs that were never completed, and then a pair of each turn is lost."""
    found = FrequencyList(A[0])
    assert [found.take(pair) for pair in A][-1] == ALL_OF_A
    heard = [0x99CD, *FrequencyList.TURNS * [0x465A, A[0], 0x1E32], A[0], 0x1E32, A[0], 0x465A]
    assert [entry for entry in map(found.take, heard) if entry is not None] == [ALL_OF_A]


def test_another_method_replaces_the_list() -> None:
    other = 3 * [0xE312, 0x1278]
    for pairs, of_a, of_b in ((3 * A + other, None, by_b(89300, [99500])), (other + 3 * A, ALL_OF_A, None)):
        events = events_of([group("0A", 8, pair, 0) for pair in pairs])
        held = {event.item: event.value for event in events}
        assert (held["af"], held["af:89.3"]) == (of_a, of_b)


def test_a_list_comes_back_after_one_of_another_method() -> None:
    """Of two transmitters by method B, of which each has its list."""
    by_two, told_of_two = [*B, *OTHER], [ALL_OF_B, by_b(89000, [95000])]
    for size in (1, 4, 61, 999):
        found = [
            value for value in lists(10 * by_two + 10 * A + 10 * by_two + 10 * A, size) if value is not None
        ]
        assert found == 2 * [*told_of_two, ALL_OF_A]


def test_a_wrong_pair_does_not_stay() -> None:
    assert lists(4 * A + [0xE50A, 0x1E32, 0x9999, 0x465A] + 6 * A)[-1] == ALL_OF_A


# ---- groups that are alike


def test_groups_that_are_alike_have_one_number() -> None:
    """A hash of 16 bits finds them: of 4,096 keys, each of which comes twice, a hundred or more have that of another."""
    keys = numpy.random.default_rng(1).integers(0, 1 << 54, 1 << 12).repeat(2)
    rows, number = columns._alike(keys)
    assert (keys[rows][number] == keys).all() and len(rows) == 1 << 12


# ---- parts and names that noise begins are forgotten


@pytest.mark.parametrize("most, kept", [(3, [1]), (4, [0, 1, 2, 3])])
def test_parts_that_never_counted_are_forgotten(most: int, kept: List[int], monkeypatch: Any) -> None:
    """If there are more than the most; one of four is of a whole group."""
    monkeypatch.setattr(evidence, "MOST_PARTS", most)
    seen, number, is_whole = evidence.Evidence(), numpy.arange(4), numpy.arange(4) == 1
    seen.news(evidence.Observations(number, number, number, is_whole, is_whole), number)
    assert [*seen.parts] == kept


@pytest.mark.parametrize("most, names", [(2, ["OTHER FM"]), (3, ["OTHER FM", "THIRD FM"])])
def test_names_of_networks_that_were_never_whole_are_forgotten(
    most: int, names: List[str], monkeypatch: Any
) -> None:
    """The second of three has its halves before and after the third begins. The first is told once."""
    monkeypatch.setattr(received, "MOST_BEGUN", most)
    first, second, third = eon_name(b"OTHER FM"), eon_name(b"THIRD FM", 0xD313), eon_name(b"LAST", 0xD314)
    rows, decoder = rows_of([*first, *second[:2], third[0], *second[2:], *first]), Decoder(lapses=True)
    events = [event for at in range(len(rows)) for event in decoder.feed(rows[at : at + 1])]
    assert told(events, *(f"eon:{pi}.ps" for pi in ("D312", "D313", "D314"))) == names
