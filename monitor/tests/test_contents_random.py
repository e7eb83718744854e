"""Random stations, received with errors: each value that is told was sent, in the group where it is told or, for a name,
a text or a list, in its last turns. The groups are made by `sent`, apart from the tables of rds_monitor."""

from __future__ import annotations

import random
from collections import Counter
from itertools import product, zip_longest
from typing import Any, Callable, Dict, List, NamedTuple, Tuple

import pytest
import sent
from rds_monitor.content import redsea
from rds_monitor.content.decoder import Decoder, Event
from rds_monitor.content.redsea import Redsea
from rds_monitor.rows.clock import Clock
from rds_monitor.rows.items import CORRECTED, LOST
from sent import Damage, Words, group

# By so many seeds each item is told fifteen times or more, from blocks of which a quarter is bad.
SEEDS, GROUPS = 50, 500
# How long a name, a text or a list may be told after it was sent: turns that are joined, as groups of the station.
KEPT = 700
LETTERS = "ABCDEFGHIJKLMNOPQRSTUVWXYZ 0123456789"
# Frequencies, and the pairs that list them.
LISTS = (([], [0xE0CD] * 4), ([88500, 90500, 92500, 94500, 96500], [0xE50A, 0x1E32, 0x465A]))


class Said(NamedTuple):
    """A group, the values of items that it says by itself, and those that it is a part of."""

    words: Words
    own: Dict[str, Any] = {}
    part_of: Dict[str, Any] = {}


class Station:
    """A station that sends everything, at random, and changes what it says now and then."""

    def __init__(self, seed: int) -> None:
        self._chance = random.Random(seed)
        self.pi = self._chance.randrange(0x1000, 0xFFFF)
        self._tp, self._pty = 1, 5
        self._texts: Dict[str, Any] = {}
        self._flag = 0
        self._applications = {0x4BD7: self._free("11A 12A"), 0x1234: self._free("3B 9B 12B")}

    def _free(self, kinds: str) -> str:
        return self._chance.choice(kinds.split())

    def groups(self, count: int) -> List[Said]:
        others = [self._labels, self._assignments, self._clock, self._network, self._type_name]
        others += [self._long_name, self._traffic, self._other]
        found: List[Said] = []
        while len(found) < count:
            # Turns of several services are sent side by side, as real encoders do, each in its order.
            turns = [make() for make in (self._name, self._radio_text) if self._chance.random() < 0.7]
            turns.append(self._chance.choice(others)())
            found += [said for at_once in zip_longest(*turns) for said in at_once if said]
        return [self._with_flags(said) for said in found[:count]]

    def _with_flags(self, said: Said) -> Said:
        if self._chance.random() < 0.01:
            self._tp, self._pty = self._chance.randrange(2), self._chance.randrange(32)
        third = self.pi if said.words[1] >> 11 & 1 else said.words[2]
        words = (self.pi, said.words[1] & ~0x7E0 | self._tp << 10 | self._pty << 5, third, said.words[3])
        return said._replace(words=words, own={**said.own, "tp": bool(self._tp), "pty": self._pty})

    def _word(self, least: int, most: int) -> str:
        return "".join(self._chance.choices(LETTERS, k=self._chance.randint(least, most))).strip() or "X"

    def _changing(self, item: str, least: int, most: int, chance: float = 0.3) -> str:
        """The name or text that is sent now."""
        if item not in self._texts or self._chance.random() < chance:
            self._texts[item] = self._word(least, most)
        return str(self._texts[item])

    def _named(self, item: str, made: Callable[..., List[Words]], most: int = 8, **own: Any) -> List[Said]:
        """A name or text in groups of its own, all of which say these values too."""
        name = self._changing(item, 1, most)
        return [Said(words, own, {item: name}) for words in made(name.encode())]

    def _name(self) -> List[Said]:
        name, flags = self._changing("ps", 1, 8), self._chance.randrange(4) << 3
        kind, (heard, pairs) = self._chance.choice(("0A", "0A", "0B")), self._chance.choice(LISTS)
        own = {"ta": bool(flags >> 4), "ms": "music" if flags & 8 else "speech"}
        groups = sent.name(name.encode(), pairs, flags, kind)
        return [Said(words, own, {"ps": name, "af": heard}) for words in groups]

    def _radio_text(self) -> List[Said]:
        text = self._changing("rt", 1, 31, 0.4)
        self._flag ^= self._chance.random() < 0.2
        groups = sent.text(text.encode() + b"\r", self._flag, self._chance.choice(("2A", "2A", "2A", "2B")))
        found = [Said(words, {"rt_ab": "AB"[self._flag]}, {"rt": text}) for words in groups]
        title = text.partition(" ")[0]
        if 0 < len(title) < len(text):
            tag = sent.tags(1, 1, (1, 0, len(title) - 1), kind=self._applications[0x4BD7])
            own = {"rt_plus_toggle": 1, "rt_plus_running": True, "rt_plus:item.title": title}
            found.append(Said(tag, own))
        return found

    def _labels(self) -> List[Said]:
        day, (hour, minute), code = self._chance.randrange(1, 32), self._time(), self._chance.randrange(0x2C)
        own = {"pin": f"{day:02} {hour:02}:{minute:02}", "language": f"{code:02X}", "linkage": False}
        return [Said(sent.label(3, code, day << 11 | hour << 6 | minute), own)]

    def _time(self) -> Tuple[int, int]:
        return self._chance.randrange(24), self._chance.randrange(60)

    def _assignments(self) -> List[Said]:
        aid = self._chance.choice(list(self._applications))
        own = {f"oda:{aid:04X}": self._applications[aid]}
        return [Said(sent.oda(aid, self._applications[aid]), own)]

    def _clock(self) -> List[Said]:
        day, (hour, minute) = self._chance.randrange(60000, 62000), self._time()
        return [Said(sent.clock(day, hour, minute, 0), {"ct": (day, hour, minute)})]

    def _network(self) -> List[Said]:
        other = self._chance.choice((0xD312, 0xD313))
        of, own = f"eon:{other:04X}", {f"eon:{other:04X}.tp": False}
        said = self._named(f"{of}.ps", lambda name: sent.eon_name(name, other), **own)
        pty, ta = self._chance.randrange(32), self._chance.randrange(2)
        own = {**own, f"{of}.pty": pty, f"{of}.ta": bool(ta)}
        return [*said, Said(sent.eon(13, pty << 11 | ta, other), own)]

    def _type_name(self) -> List[Said]:
        return self._named("ptyn", lambda name: sent.type_name(name, sum(name) & 1))

    def _long_name(self) -> List[Said]:
        return self._named("lps", lambda name: sent.segments("15A", name + b"\r", 8), 31)

    def _traffic(self) -> List[Said]:
        return self._named("tmc_provider", lambda name: sent.segments("8A", name, 2, 0x14), tmc=True)

    def _other(self) -> List[Said]:
        """Groups of applications, transparent data, in-house data and paging, whose bits are anything."""
        kind = self._chance.choice((self._applications[0x1234], "5A", "6A", "7A"))
        words = group(kind, self._chance.randrange(32), *(self._chance.randrange(1 << 16) for _ in range(2)))
        own = {"5A": {f"tdc:{words[1] & 31}": True}, "6A": {"ih": True}, "7A": {"rp": True}}
        return [Said(words, own.get(kind, {}))]


def damage_of(groups: List[Said], seed: int, bad: float) -> List[Tuple[int, Damage]]:
    """Lost and corrected blocks, one in a hundred of these wrongly."""
    chance, found = random.Random(seed), []
    for number, block in product(range(len(groups)), (1, 2, 3, 4)):
        if chance.random() < bad:
            wrong = chance.randrange(1 << 16) if chance.random() < 0.01 else None
            found.append((number, Damage(block, chance.choice((LOST, CORRECTED, CORRECTED)), wrong)))
    return found


def is_sent(event: Event, groups: List[Said]) -> bool:
    """Whether the value was sent: by the group itself, or as a whole in its last turns. A list that was heard from its
    middle on has another order."""
    number = event.place // 104
    own, latest = groups[number].own.get(event.item), groups[max(0, number - KEPT) : number + 1]
    value = sorted(event.value) if event.item == "af" else event.value
    if event.item.startswith("oda:"):
        return bool(own) and value["group"] == own
    if event.item == "ct":
        day, hour, minute = own or (0, 0, 0)
        return bool(own) and value.endswith(f"T{hour:02}:{minute:02}+00:00")
    if event.item.startswith("di_"):
        return value is False
    if event.item.startswith("rt_plus:"):
        return any(said.own.get(event.item) == value for said in latest)
    if own is not None:
        return bool(own == value)
    return any(said.part_of.get(event.item) == value for said in latest if event.item in said.part_of)


def test_random_groups_have_no_end_of_parts() -> None:
    """Groups of more other networks than are remembered; half of them count."""
    chance, decoder = random.Random(1), Decoder()
    words = [group("14A", *(chance.randrange(size) for size in (16, 1 << 16, 1 << 16))) for _ in range(24000)]
    rows = sent.rows_of(words, [(number, Damage(3, LOST)) for number in range(0, len(words), 2)])
    assert len(decoder.feed(rows)) > 10000 and decoder.held()["pi"].value == f"{sent.PI:04X}"


def test_lines_of_redsea_are_made_anew_where_items_change(monkeypatch: pytest.MonkeyPatch) -> None:
    """None differs from the line that is made for each group by itself."""
    for seed in range(8):
        groups = Station(seed).groups(GROUPS)
        rows = sent.rows_of([said.words for said in groups], damage_of(groups, seed, 0.05))
        lines = [*Redsea(Decoder(lapses=True)).lines(rows, Clock())]
        with monkeypatch.context() as patch:
            patch.setattr(redsea, "MOST_WRITTEN", 0)
            assert [*Redsea(Decoder(lapses=True)).lines(rows, Clock())] == lines and len(lines) > GROUPS / 2


@pytest.mark.parametrize("bad", [0.0, 0.05, 0.25])
def test_each_value_that_is_told_was_sent(bad: float) -> None:
    told, wrong = Counter[str](), Counter[str]()
    for seed in range(SEEDS):
        station = Station(seed)
        groups = station.groups(GROUPS)
        rows = sent.rows_of([said.words for said in groups], damage_of(groups, seed, bad))
        for event in Decoder().feed(rows):
            if event.item == "pi" or event.value is None:
                continue
            item = event.item.partition(":")[0]
            told[item] += 1
            wrong[item] += not is_sent(event, groups)
    expected = set("ps rt rt_ab rt_plus pin language oda ct eon ptyn lps tmc_provider".split())
    assert expected <= set(told) and min(told[item] for item in expected) >= 15
    # Only blocks that were corrected wrongly, one in 150 of the bad ones, bring another value, and few of them.
    assert sum(wrong.values()) <= bad / 50 * sum(told.values()), wrong
