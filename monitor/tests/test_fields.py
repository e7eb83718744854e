"""The table of fields reads what the groups of `sent` say, and nothing beside."""

from __future__ import annotations

import re
from itertools import chain
from pathlib import Path
from typing import Callable, Dict, Iterator, List, Optional

import numpy
import pytest

from rds_monitor.content import looks, names
from rds_monitor.content.fields import FIELDS, TABLE
from rds_monitor.content.columns import payload
from rds_monitor.signal.rates import COMMON
from sent import clock, group, label, tags


def test_every_line_is_a_field() -> None:
    assert len(FIELDS) == len(TABLE.strip().splitlines()) - 1
    for field in FIELDS.values():
        assert all(1 <= block <= 4 and shift + mask.bit_length() <= 16 for block, shift, mask in field.parts)


READ: Dict[str, tuple[tuple[int, int, int, int], int]] = {
    "pi": (group("6A", 0), 0xD318),
    "type": (group("14B", 0), 14),
    "version": (group("14B", 0), 1),
    "tp": (group("6A", 0), 1),
    "pty": (group("6A", 0, pty=31), 31),
    "ta": (group("0A", 0x10), 1),
    "ms": (group("0A", 0x08), 1),
    "di.bit": (group("0A", 0x04), 1),
    "di.segment": (group("0A", 3), 3),
    "la": (label(0, 0, linkage=1), 1),
    "label.variant": (label(7, 0), 7),
    "label.data": (label(0, 0xABC), 0xABC),
    "pin": (label(0, 0, 0x9234), 0x9234),
    "rt.kind": (group("2B", 0x10), 3),
    "rt.segment": (group("2A", 0x1F), 15),
    "oda.group": (group("3A", 22), 22),
    "tdc.channel": (group("5A", 31), 31),
    "tdc.data": (group("5A", 0, 0x9234, 0x5678), 0x92345678),
    "tdc.short": (group("5B", 0, 0, 0x9678), 0x9678),
    # All that a group carries of its own, beside a programme type of ones.
    **{
        field: (group(kind, 31, 0x1234, 0x5678, pty=31), 31 << 32 | 0x12345678)
        for field, kind in zip("ih tmc.message ews rtplus dab".split(), "6A 8A 9A 11A 12A".split())
    },
    "ih.short": (group("6B", 31, 0, 0x5678, pty=31), 31 << 16 | 0x5678),
    "tmc.variant": (group("8A", 31), 31),
    "ptyn.flag": (group("10A", 0x10), 1),
    "ptyn.segment": (group("10A", 31), 1),
    "eon.tp": (group("14A", 0x10), 1),
    "eon.variant": (group("14A", 31), 15),
    "eon.ta": (group("14B", 8), 1),
    "lps.segment": (group("15A", 31), 7),
    "ert.segment": (group("12A", 31), 31),
    "dab.service": (group("12A", 0x10), 1),
    "dab.mode": (group("12A", 0x0C), 3),
    "dab.frequency": (group("12A", 3, 0x1235, 0x5678), 3 << 16 | 0x1235),
    "dab.low": (group("12A", 3, 0x9235, 0x5678), 0x9235),
    "dab.ensemble": (group("12A", 3, 0x1235, 0x9679), 0x9679),
    "ct.day": (clock(0x1FFFF, 0, 0, 0), 0x1FFFF),
    "ct.hour": (clock(0, 31, 0, 0), 31),
    "ct.minute": (clock(0, 0, 63, 0), 63),
    "ct.sign": (clock(0, 0, 0, -1), 1),
    "ct.half_hours": (clock(0, 0, 0, 31), 31),
    "rtplus.toggle": (tags(1, 0), 1),
    "rtplus.running": (tags(0, 1), 1),
    "rtplus.class1": (tags(0, 0, (63, 0, 0)), 63),
    "rtplus.start1": (tags(0, 0, (0, 63, 0)), 63),
    "rtplus.more1": (tags(0, 0, (0, 0, 63)), 63),
    "rtplus.class2": (tags(0, 0, (0, 0, 0), (63, 0, 0)), 63),
    "rtplus.start2": (tags(0, 0, (0, 0, 0), (0, 63, 0)), 63),
    "rtplus.more2": (tags(0, 0, (0, 0, 0), (0, 0, 31)), 31),
}


@pytest.mark.parametrize("field", READ)
def test_a_field_is_read_and_its_neighbours_are_not(field: str) -> None:
    words, value = READ[field]
    # The highest bit of each value is 1.
    assert (FIELDS[field].of(words), FIELDS[field].width) == (value, value.bit_length())
    # Each bit of the field, and none but these, changes it.
    outside = [0xFFFF] * 4
    for block, shift, mask in FIELDS[field].parts:
        outside[block - 1] &= ~(mask << shift)
    assert FIELDS[field].of(outside) == 0


def test_arrays_are_read_alike_and_payloads_are_the_37_bits_of_a_group() -> None:
    one, other = clock(61128, 1, 30, 4), clock(61129, 23, 59, -7)
    words = [numpy.array(column) for column in zip(one, other)]
    assert FIELDS["ct.day"].of(words).tolist() == [61128, 61129]
    assert FIELDS["ct.day"].of(payload(FIELDS["ct"].of(one))) == 61128


def test_every_look_and_text_is_of_known_fields_in_groups_that_have_them() -> None:
    for look in chain(*looks.LOOKS.values()):
        for name in filter(None, (look.value, look.position, look.message, look.when)):
            groups = set(FIELDS[name].groups)
            assert groups >= set(look.groups.split()) or groups == {"all"}, (look, name)
    for text in looks.TEXTS:
        for name in filter(None, (text.segment, *text.pairs, text.message)):
            assert set(FIELDS[name].groups) >= set(text.groups.split()), (text, name)
        most = (1 << FIELDS[text.segment].width) - text.first
        assert len(text.pairs) == text.shape.pairs and text.shape.segments <= most


def test_which_groups_may_carry_an_application() -> None:
    """IEC 62106, clause 6.1.5.4, table 6: all types but 0 to 2, 3A, 4A, 10A, 14 and 15, and but 1B."""
    assert [looks.name_of(code) for code in range(32) if looks.may_carry_application(code)] == (
        "3B 4B 5A 5B 6A 6B 7A 7B 8A 8B 9A 9B 10B 11A 11B 12A 12B 13A 13B".split()
    )


def test_call_letters() -> None:
    """NRSC-4-B, annex D.7: the first and last of K and W, both kinds of zeros, and PI that have none."""
    known, none = (0x1000, 0x54A7, 0x54A8, 0x994F, 0x7106, 0x12A4, 0xA123, 0xAF13), (0x9950, 0x0FFF, 0xB001)
    assert [*map(names.call_letters, known)] == "KAAA KZZZ WAAA WZZZ WKTI KBAA KABJ KBDO".split()
    assert [*map(names.call_letters, none)] == 3 * [None]


def typed(table: str) -> Iterator[str]:
    """The entries of a table in names.txt, each with its code if the table has them in a row."""
    for line in Path(__file__).with_name("names.txt").read_text().splitlines():
        head, _, entries = line.partition(": ")
        if head.split()[0] == table:
            for place, entry in enumerate(entries.split("; ")):
                yield entry if head.endswith("-") else f"{int(head.split()[1], 16) + place:02X} {entry}"


def country(code: int) -> Optional[str]:
    """By an extended country code and the first digit of a PI."""
    found = names.country(code >> 4, (code & 0xF) << 12 | 0x318)
    return found and f"{found} {names.COUNTRY_NAMES[found]}"


def of_codes(name_of: Callable[[int], Optional[str]], count: int) -> List[str]:
    return [f"{code:02X} {name}" for code, name in enumerate(map(name_of, range(count))) if name]


NUMBERED = re.compile("(CITIBUS|ELECTRABEL-DSM) ")
APPLICATIONS = {f"{aid:04X} {name}": bool(NUMBERED.match(name)) for aid, name in names.APPLICATIONS.items()}
TABLES: Dict[str, List[str]] = {
    "pty": of_codes(names.programme_type, 32),
    "rbds": of_codes(lambda code: names.programme_type(code, True), 32),
    "language": of_codes(names.language, 0x100),
    "class": of_codes(names.CONTENT_TYPES.__getitem__, 64),
    "country": of_codes(country, 0x1000),
    "mode": of_codes(names.DAB_MODES.__getitem__, 4),
    "scope": of_codes(names.TMC_SCOPES.__getitem__, 4),
    "channel": [f"{kilohertz} {name}" for kilohertz, name in sorted(names.DAB_CHANNELS.items())],
    "application": [entry for entry, is_numbered in APPLICATIONS.items() if not is_numbered],
    "numbered": [entry for entry, is_numbered in APPLICATIONS.items() if is_numbered],
    "rate": [f"{rate / 1000:.7g}" for rate in COMMON],
}


@pytest.mark.parametrize("table", TABLES)
def test_whole_tables_are_those_of_the_standards(table: str) -> None:
    assert TABLES[table] == [*typed(table)]


def test_each_number_of_an_operator_comes_once() -> None:
    found = sorted(name for name in names.APPLICATIONS.values() if NUMBERED.match(name))
    wanted = [
        (name, n) for name, count in (("CITIBUS", 4), ("ELECTRABEL-DSM", 20)) for n in range(1, count + 1)
    ]
    assert found == sorted(f"{name} {number}" for name, number in wanted)
