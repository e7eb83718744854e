"""Values with a sign or a bound: below, at and past each end, and zero. What a code means is computed from the standard's words."""

from __future__ import annotations

from datetime import date, timedelta
from typing import Any, Callable, Dict, List, NamedTuple

import pytest

from sent import Words, clock, eon, events_of, group, label, oda, segments, tags, text

Codes = Dict[int, Any]


class Mirrored(NamedTuple):
    """An item, the groups that say a code, and what is told of each code; None if nothing is."""

    item: str
    groups: Callable[[int], List[Words]]
    told: Codes


def ends(first: int, last: int, of: Callable[[int], Any], past: int) -> Codes:
    """The first and the last code that mean something, and those beside them that mean nothing."""
    return {first - 1: None, first: of(first), last: of(last), past: None}


def day(code: int) -> str:
    return f"{date(1858, 11, 17) + timedelta(code)}T00:00+00:00"


def vhf(code: int) -> int:
    return 87500 + 100 * code


def method_a(code: int) -> List[Words]:
    return [group("0A", k, pair) for k, pair in enumerate((0xE20A, code << 8 | 205))]


def number_of(count: int) -> List[Words]:
    """A list with this count in its head."""
    codes = [1, *range(2, count + 1), 205]
    pairs = [(224 + count) << 8 | codes[0], *(a << 8 | b for a, b in zip(codes[1::2], codes[2::2]))]
    return [group("0A", k % 4, pair) for k, pair in enumerate(pairs)]


def tagged(start: int, more: int) -> List[Words]:
    return [oda(0x4BD7, "11A"), *text(b"x" * 63 + b"y"), tags(0, 0, (1, start, more))]


def half_hours(count: int, sign: str = "+") -> str:
    return f"{sign}{count // 2:02}:{count % 2 * 30:02}"


TEXT_64 = "x" * 63 + "y"
LIST = lambda count: [vhf(code) for code in range(1, count + 1)]
CASES = {
    "half hours": Mirrored(
        "ct",
        lambda n: [clock(61128, 12, 0, n)],
        {
            n: (
                f"2026-03-{29 if 0 <= 24 + n < 48 else 28 if n < 0 else 30}"
                f"T{(24 + n) % 48 // 2:02}:{n % 2 * 30:02}{half_hours(abs(n), '-' if n < 0 else '+')}"
            )
            for n in (-31, -1, 0, 1, 31)
        },
    ),
    "days": Mirrored("ct", lambda n: [clock(n, 0, 0, 0)], {**ends(40587, 131071, day, 40586)}),
    "hours": Mirrored(
        "ct",
        lambda n: [clock(61128, n, 0, 0)],
        {n: f"2026-03-29T{n:02}:00+00:00" for n in (0, 23)} | {24: None, 31: None},
    ),
    "minutes": Mirrored(
        "ct",
        lambda n: [clock(61128, 0, n, 0)],
        {n: f"2026-03-29T00:{n:02}+00:00" for n in (0, 59)} | {60: None, 63: None},
    ),
    "VHF": Mirrored(
        "af", method_a, {n: told and [vhf(10), told] for n, told in ends(1, 204, vhf, 205).items()}
    ),
    "LF": Mirrored(
        "af",
        lambda n: method_a(0xFA)[:1] + [group("0A", 1, 0xFA00 | n)],
        {1: [vhf(10), 153], 15: [vhf(10), 279], 0: None},
    ),
    "MF": Mirrored(
        "af",
        lambda n: method_a(0xFA)[:1] + [group("0A", 1, 0xFA00 | n)],
        {16: [vhf(10), 531], 135: [vhf(10), 1602], 136: None},
    ),
    "frequencies": Mirrored("af", number_of, {0: [], 1: LIST(1), 25: LIST(25), 26: None}),
    "EON frequency": Mirrored(
        "eon:D312.mapped:88.5", lambda n: [eon(5, 10 << 8 | n)], ends(1, 204, vhf, 205)
    ),
    "EON frequency of variant 8": Mirrored(
        "eon:D312.mapped:88.5", lambda n: [eon(8, 10 << 8 | n)], ends(1, 204, vhf, 205)
    ),
    "EON variants of frequencies": Mirrored(
        "eon:D312.mapped:88.5",
        lambda n: [eon(n, 10 << 8 | 20)],
        {4: None, 5: 89500, 6: 89500, 7: 89500, 8: 89500, **dict.fromkeys((9, 10, 11, 12, 15))},
    ),
    "EON list with long and medium wave": Mirrored(
        "eon:D312.af",
        lambda n: [eon(4, 0xE20A), eon(4, 0xFA00 | n)],
        {1: [vhf(10), 153], 16: [vhf(10), 531], 0: None, 136: None},
    ),
    "EON medium wave": Mirrored(
        "eon:D312.mapped:88.5.am",
        lambda n: [eon(9, 10 << 8 | n)],
        {0: None, 1: 153, 16: 531, 135: 1602, 136: None},
    ),
    "EON linkage set": Mirrored(
        "eon:D312.linkage",
        lambda n: [eon(12, n)],
        {
            n: dict(linked=flags[0], extended_generic=flags[1], international=flags[2], set=number)
            for n, number, flags in (
                (0, 0, (False, False, False)),
                (0x0FFF, 0xFFF, (False, False, False)),
                (0x8000, 0, (True, False, False)),
                (0x4000, 0, (False, True, False)),
                (0x2001, 1, (False, False, False)),
                (0x1001, 1, (False, False, True)),
            )
        },
    ),
    "EON PTY": Mirrored("eon:D312.pty", lambda n: [eon(13, n << 11)], {0: 0, 31: 31}),
    "EON PIN": Mirrored(
        "eon:D312.pin",
        lambda n: [eon(14, n)],
        {1 << 11: "01 00:00", 31 << 11 | 23 << 6 | 59: "31 23:59", 59: None},
    ),
    "PIN day": Mirrored("pin", lambda n: [label(0, 0, n << 11)], {0: None, 1: "01 00:00", 31: "31 00:00"}),
    "PIN hour": Mirrored(
        "pin", lambda n: [label(0, 0, 1 << 11 | n << 6)], {0: "01 00:00", 23: "01 23:00", 24: None}
    ),
    "PIN minute": Mirrored(
        "pin", lambda n: [label(0, 0, 1 << 11 | n)], {0: "01 00:00", 59: "01 00:59", 60: None}
    ),
    "PTY": Mirrored("pty", lambda n: [group("6A", 0, pty=n)], {0: 0, 31: 31}),
    "language": Mirrored("language", lambda n: [label(3, n)], {0: "00", 0x7F: "7F", 0xFF: "FF", 0x100: "00"}),
    "country code": Mirrored("ecc", lambda n: [label(0, n)], {0: None, 1: "01", 0xFF: "FF"}),
    "slow labelling code": Mirrored("tmc_id", lambda n: [label(1, n)], {0: "000", 0xFFF: "FFF"}),
    "channel": Mirrored("tdc:31", lambda n: [group("5A", n)], {30: None, 31: True, 0: None}),
    "first channel": Mirrored("tdc:0", lambda n: [group("5B", n)], {0: True, 1: None}),
    "TMC extent": Mirrored(
        "tmc_message",
        lambda n: [group("8A", 8, (n < 0) << 14 | abs(n) << 11 | 1, 9)],
        {
            n: dict(
                event=1,
                location=9,
                direction="negative" if n < 0 else "positive",
                extent=abs(n),
                diversion=False,
                duration=0,
            )
            for n in (-7, -1, 0, 1, 7)
        },
    ),
    "TMC event and location": Mirrored(
        "tmc_message",
        lambda n: [group("8A", 8 | 7, n & 0x7FF, n)],
        {
            n: dict(event=n & 0x7FF, location=n, direction="positive", extent=0, diversion=False, duration=7)
            for n in (1, 0x7FF, 0xFFFF)
        },
    ),
    "location table": Mirrored(
        "tmc_service",
        lambda n: [oda(0xCD46, "8A", n << 6)],
        {n: dict(location_table=n, alternative_frequencies=False, mode="basic", scope=[]) for n in (0, 63)},
    ),
    "start of a tag": Mirrored("rt_plus:item.title", lambda n: tagged(n, 0), {0: "x", 63: "y"}),
    "length of a tag": Mirrored(
        "rt_plus:item.title", lambda n: tagged(1, n), {0: "x", 62: TEXT_64[1:], 63: None}
    ),
    "DAB frequency": Mirrored(
        "dab:239.200",
        lambda n: [oda(0x0093, "12A"), group("12A", n >> 16, n & 0xFFFF, 1)],
        {14949: None, 14950: {"ensemble": "0001", "channel": "13F", "mode": "unspecified"}, 14951: None},
    ),
    "DAB mode": Mirrored(
        "dab:174.928",
        lambda n: [oda(0x0093, "12A"), group("12A", n << 2, 10933, 0xFFFF)],
        {
            n: {"ensemble": "FFFF", "channel": "5A", "mode": mode}
            for n, mode in ((0, "unspecified"), (3, "IV"))
        },
    ),
    "long PS": Mirrored(
        "lps", lambda n: segments("15A", b"z" * n + b"\r" * (n < 32)), {1: "z", 31: "z" * 31, 32: "z" * 32}
    ),
}


@pytest.mark.parametrize("title", CASES)
def test_codes(title: str) -> None:
    """Before each comes a group of the station without contents, so that what is not told is not there."""
    item, groups, told = CASES[title]
    for code, wanted in told.items():
        values = [event.value for event in events_of([group("15A", 31), *groups(code)]) if event.item == item]
        assert (values[-1] if values else None) == wanted, code
