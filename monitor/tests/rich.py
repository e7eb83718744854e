"""Two recordings of one station with something of everything: their groups, the damage, and the blocks that a decoder can count.

A damage is a number of bits in a row that are wrong, or `LOST`, which no burst of five bits corrects. In an outage all bits are 0.
The counts are made by the rules of docs/MODEL.md from this table alone, for the golden texts to be compared with.
"""

from __future__ import annotations

from collections import Counter
from typing import Dict, Iterator, List, NamedTuple, Sequence, Tuple

import numpy

from captures import Sent, captured
from conftest import encode
from modulator import mpx, stored, wav
from network import START
from sent import Words, clock, eon, eon_name, group, label, name, oda, segments, tags, text, type_name

RATE, BLOCK, GROUP = 1189.2, 26, 104
OTHER_PI, LOST = 0xD4A9, 26


class Damage(NamedTuple):
    """Of a block of a group, by its number from 0 on: how many bits in a row, from which one of its 26 on."""

    group: int
    block: int
    bits: int
    first: int = 3


class Outage(NamedTuple):
    """The number of bits that are 0 before a group."""

    group: int
    bits: int


class Recording(NamedTuple):
    """`start` is in seconds since 1970. The bits begin with some zeros, then come the groups."""

    name: str
    start: float
    zeros: int
    groups: Sequence[Words]
    damages: Sequence[Damage]
    outages: Sequence[Outage]
    end: int

    def begins(self) -> Iterator[int]:
        """The position of the first bit of each group."""
        place, outages = self.zeros, dict(self.outages)
        for number in range(len(self.groups)):
            place += outages.get(number, 0)
            yield place
            place += GROUP

    def blocks(self) -> Iterator[Tuple[int, int]]:
        """The position of each block and how many bits of it are wrong; those of an outage are in line with the blocks before."""
        wrong, outages, after = {one[:2]: one.bits for one in self.damages}, dict(self.outages), self.zeros
        for number, begin in enumerate(self.begins()):
            yield from ((after + BLOCK * k, LOST) for k in range(outages.get(number, 0) // BLOCK))
            yield from ((begin + BLOCK * block, wrong.get((number, block), 0)) for block in range(4))
            after = begin + GROUP
        yield from ((after + BLOCK * k, LOST) for k in range(self.end // BLOCK))

    def bits(self) -> bytes:
        bits = numpy.unpackbits(numpy.frombuffer(encode(self.groups), "u1")).reshape(-1, GROUP)
        for number, block, count, first in self.damages:
            at = numpy.array([0, 8, 17, 25]) if count == LOST else numpy.array([first, first + count - 1])
            bits[number, numpy.unique(BLOCK * block + at)] ^= 1
        parts, begin = [numpy.zeros(self.zeros, "u1")], 0
        for number, count in [*self.outages, Outage(len(bits), self.end)]:
            parts += [bits[begin:number].reshape(-1), numpy.zeros(count, "u1")]
            begin = number
        return numpy.packbits(numpy.concatenate(parts)).tobytes()

    @property
    def length(self) -> int:
        return (
            -(
                -(self.zeros + GROUP * len(self.groups) + sum(one.bits for one in self.outages) + self.end)
                // 8
            )
            * 8
        )

    def heard(self, burst: int = 2) -> List[Tuple[int, str]]:
        """The position and the outcome of each block that is read: after two valid blocks at most three apart, until ten in a row are bad."""
        found: List[Tuple[int, str]] = []
        last, bad = -BLOCK * 4, 10
        for place, wrong in self.blocks():
            if bad < 10:
                found.append((place, "valid" if not wrong else "corrected" if wrong <= burst else "lost"))
                bad = bad + 1 if wrong else 0
            elif not wrong:
                if place - last <= 3 * BLOCK:
                    found.append((place, "valid"))
                    bad = 0
                last = place
        return found

    def counts(self, seconds: float) -> List[Dict[str, int]]:
        """By intervals, each block in that of its first bit; those not read are the others whose last bit was sent by then."""
        found = [Counter[str]() for _ in range(-int(-self.length // (seconds * RATE)))]
        for place, outcome in self.heard():
            found[int(place / (seconds * RATE))][outcome] += 1
        return [dict(one) for one in found]


# ---- what is sent

# 25 alternative frequencies by method A, and a transmitter with three others by method B: two of its own, one of a region.
AF_25 = [0xF901, *(256 * k + k + 1 for k in range(2, 26, 2))]
AF_B = [0xE70A, 0x0A14, 0x0A1E, 0x280A]
RT_A, RT_B = b'Caf\x82 "M&M" <b>by</b> Singer\r', b"News at ten\r"


def opening() -> List[Words]:
    """After the group in which sync is acquired, each group type in both versions, each variant of EON and of the slow labelling codes, and applications."""
    codes = [label(0, 0xE0, 21 << 11 | 18 << 6 | 45, 1), label(1, 0x0C3), label(2, 0x5A1), label(3, 0x09)]
    codes += [label(6, 0xFED), label(7, 0x00A), group("1B", 0, 0, 22 << 11 | 6 << 6 | 7)]
    open_data = [
        oda(0xCD46, "8A", 0x0A79),
        oda(0xCD46, "8A", 0x6280),
        oda(0x4BD7, "11A"),
        oda(0x6552, "12A", 1),
    ]
    open_data += [oda(0x4BD8, "13A"), oda(0x0093, "7A"), oda(0x1234, "9B")]
    networks = [*eon_name(b"OTHER <>"), eon(4, 0xF901), *(eon(4, pair) for pair in AF_25[1:])]
    networks += [eon(variant, 0x0A00 * variant + 20 * variant) for variant in (5, 6, 7, 8)]
    networks += [
        eon(9, 0x0A10),
        eon(12, 0xD123),
        eon(13, 0x5801),
        eon(14, 23 << 11 | 9 << 6 | 5),
        eon(8, 0x0B0C, 0xD3FF),
    ]
    networks += [eon(12, 0x4456, 0xD3FF), group("14B", 0b11000, 0, 0xD3FF), eon(0, 0x4141, 0xD3FF, tp=1)]
    traffic = [group("8A", 0b01101, 0xDABD, 4321), group("8A", 0b00001, 0x8000 | 1 << 14 | 2 << 11 | 802, 77)]
    traffic += segments("8A", b"Traffic1", 2, 0x14)
    data = [group("5A", 3, 0xFF01, 0x0203), group("5B", 31, 0, 0x0405), group("6A", 5, 0x1234, 0x5678)]
    data += [group("6B", 3, 0, 0x9ABC), group("9A", 9, 0x1111, 0x2222), group("7A", 0b00100, 0x35CC, 0xCE15)]
    data += [group("7A", 0b10000, 0, 0xE1D1), group("15B", 0b11100, 0, 0xFD58)]
    plain = [group(f"{n}B", 1, 0, 0xB000 + n) for n in (3, 4, 7, 8, 9, 10, 11, 12, 13)]
    plain += [*name(b"IN B", kind="0B", flags=0), *text(b"In B\r", kind="2B")]
    enhanced = [*segments("12A", "Δέκα\r".encode(), 3), tags(0, 1, (1, 0, 3), kind="13A")]
    long = segments("15A", "Radio Réiche".encode(), 8)
    return [
        group("8B", 2, 0, 7),
        *codes,
        *open_data,
        *networks,
        *traffic,
        *data,
        *plain,
        *enhanced,
        *long,
        *type_name(b"Polka!"),
    ]


def programme(
    count: int, af: Sequence[int], rt: bytes, flags: int, ps: bytes = b"RICH FM", **options: int
) -> List[Words]:
    """A number of groups: PS with frequencies, RT, and tags of RadioText Plus in turn."""
    names = [one for k in range(0, len(af), 4) for one in name(ps, af[k : k + 4], flags, **options)]
    texts = text(rt, flags >> 4, **options)
    tagged = tags(flags >> 3 & 1, 1, (1, 0, 3), (4, 21, 5)) if rt is RT_A else tags(0, 0, (12, 0, 3))
    found = []
    for k in range(count):
        turn = names[k // 2 % len(names)] if k % 2 else texts[k // 2 % len(texts)]
        found.append(tagged if k % 40 == 39 and not options else turn)
    return found


def damages(first: int, *counts: int) -> List[Damage]:
    """The counts are of blocks with one wrong bit, two, to five, and lost; in each 17th group, each in another block."""
    bits = [wrong for wrong, count in zip((1, 2, 3, 4, 5, LOST), counts) for _ in range(count)]
    return [Damage(first + 17 * k, k % 4, wrong, 5 * k % 20) for k, wrong in enumerate(bits)]


def with_clock(recording: Recording, half_hours: int, offsets: Sequence[float]) -> Recording:
    """With groups of clock time, each of which ends later than its minute by its offset, as far as a group's length lets it."""
    groups = [*recording.groups]
    ends = numpy.array([begin + GROUP for begin in recording.begins()])
    for minute, offset in enumerate(offsets, int(recording.start // 60) + 1):
        number = int(numpy.abs(ends / RATE - (60 * minute + offset - recording.start)).argmin())
        day, time = divmod(minute, 1440)
        pi, second, *_ = groups[number]
        _, low, *rest = clock(40587 + day, time // 60, time % 60, half_hours)
        groups[number] = (pi, low & ~0x7E0 | second & 0x7E0, rest[0], rest[1])
    return recording._replace(groups=groups)


def one() -> Recording:
    """Music, speech with an announcement, another PI, another PTY, an alarm and a PS that scrolls. The station's clock is slow, then fast."""
    groups = [*opening(), *programme(922, AF_25, RT_A, 8), *programme(700, AF_25, RT_B, 16)]
    groups += programme(270, AF_25[:1], RT_B, 8, b"OTHER", pi=OTHER_PI, tp=0)
    groups += [*programme(930, AF_25, RT_A, 8, pty=11), *programme(60, AF_25, RT_A, 8, pty=31)]
    groups += programme(6000, AF_25, RT_A, 8)
    for number in range(10):
        groups += programme(40, AF_25, RT_A, 8, b"SCROLL %d" % number)
    outages = [Outage(400, 840), Outage(1200, 1660), Outage(2600, 2255), Outage(5000, 8683)]
    version_b = next(number for number, words in enumerate(groups) if words[1] >> 11 == 3 << 1 | 1)
    wrong = [Damage(version_b, 2, 2), *damages(5600, 11, 7, 5, 4, 3, 13)]
    found = Recording("one", START, 36, groups, wrong, outages, 11)
    return with_clock(found, -7, [0.3] * 11 + [-1.4] * 3)


def two() -> Recording:
    """Another transmitter, with method B, RT of version B, paging, and at the end no RDS for twelve seconds."""
    groups = [
        group("7A", 1, 2, 3),
        group("13A", 1, 2, 3),
        *text(b"A text of 32 characters in all..", kind="2B"),
    ]
    groups += [oda(0xCD46, "8A", 0x0079), *programme(1300, AF_B, RT_B, 12, b"RICH 2", tp=0, pty=15)]
    found = Recording("two", START + 334751.125, 5, groups, damages(300, 2, 1, 0, 0, 0, 3), [], 14300)
    return with_clock(found, 4, [-0.6, -0.6])


# ---- what other commands take: signals, texts of groups, and bits of RBDS

MPX_RATE, IQ_RATE, IQ_SECONDS, CENTRE = 171000, 600000, 1.6, 98e6
# Of the MPX: the ratio of signal to noise in dB, and what carrier and bit clock are off, in Hz and parts in a million.
SNR, CARRIER, CLOCK = 20, 12.34, 50
# Blocks E after each group, and the lines of a text that are no groups.
BLOCKS_E, NO_GROUPS = 5, {3: "D318 0548 E0CD", 17: "none"}


class Station(NamedTuple):
    """Of a capture: its offset from the centre in Hz, its level in dB, and its groups."""

    offset: int
    level: float
    groups: Sequence[Words]


def stations() -> List[Station]:
    """Both send PS, the second one another PI."""
    groups = one().groups
    other = next(number for number, words in enumerate(groups) if words[0] == OTHER_PI)
    return [Station(150000, 0, groups[100:119]), Station(-150000, -10, groups[other : other + 20])]


def mpx_file(groups: Sequence[Words]) -> bytes:
    """A WAV file, whose second channel is the MPX."""
    signal = mpx(encode(groups), MPX_RATE, SNR, carrier_offset=CARRIER, clock_offset=CLOCK)
    both = numpy.column_stack([numpy.zeros_like(signal), signal]).ravel()
    return wav(stored(both, "s16"), "s16", MPX_RATE, channels=2)


def capture_file() -> bytes:
    """The stations, as IQ in a WAV file."""
    sent = [Sent(one.offset, encode(one.groups), one.level) for one in stations()]
    return wav(stored(captured(sent, IQ_RATE, IQ_SECONDS, -60), "s16"), "s16", IQ_RATE, channels=2)


def group_text(groups: Sequence[Words]) -> str:
    lines = ["%04X %04X %04X %04X" % words for words in groups]
    for number, line in NO_GROUPS.items():
        lines.insert(number - 1, line)
    return "".join(f"{line}\n" for line in lines)


def with_blocks_e(groups: Sequence[Words]) -> bytes:
    """Groups, after each of which its words follow again in blocks without an offset word."""
    bits = ""
    for words in groups:
        bits += f"{int.from_bytes(encode([words]), 'big'):0{GROUP}b}"
        for word in (*words, *words)[:BLOCKS_E]:
            block = int.from_bytes(encode([(word, 0, 0, 0)]), "big") >> 3 * BLOCK
            bits += f"{block ^ 0xFC:0{BLOCK}b}"
    return int(bits, 2).to_bytes(len(bits) // 8, "big")
