"""What counts: groups of four valid blocks, and values twice alike, once of that in valid blocks."""

from __future__ import annotations

import random
from typing import Any, Dict, Iterable, List, Optional, Sequence, Tuple


import pytest
from hypothesis import given, settings, strategies as st

from network import Programme
from rds_monitor.content.decoder import Decoder, Event
from rds_monitor.rows.items import CORRECTED, LOST
from sent import PI, Damage, Words, clock, events_of, group, name, oda, rows_of, tags, text, told, type_name
from test_contents_random import Station, damage_of

NAMED = name(b"PAXO 318")
THRICE = 3 * NAMED


def of(groups: Sequence[Words], damage: Sequence[Tuple[int, Damage]], *items: str) -> List[Any]:
    return told(events_of(groups, damage), *items)


# ---- the cases that every decoder must keep


def each(numbers: Iterable[int], *damage: Damage) -> List[Tuple[int, Damage]]:
    """This damage in each of these groups."""
    return [(number, one) for number in numbers for one in damage]


LOSE = {block: Damage(block, LOST) for block in (1, 2, 3, 4)}
MEND = {block: Damage(block, CORRECTED) for block in (1, 2, 3, 4)}
OTHER = [(0xD319, *words[1:]) for words in NAMED]
TWICE, LACKING = [group("6A", 0), *NAMED, *NAMED], each(range(1, 9), LOSE[3])
TURNS = [group("6A", 0, pty=value) for value in (1, 2, 1, 2, 1, 2)]
A_TEXT, HALVES = text(b"A text\r"), each(range(6), LOSE[4]) + each(range(6, 10), LOSE[3])
STAYS = "AAAABBBBCCCC"
WHOLE, STRAY = text(STAYS.encode() + b"\r"), text(b"XXXX", 1)
STRAYS = WHOLE + [WHOLE[1], *STRAY, WHOLE[2], *STRAY, *WHOLE[1:]]
CLOCKS, TRAFFIC = NAMED + 3 * [clock(61128, 1, 30, 4)], NAMED + 2 * [group("8A", 1, 2, 3)]
OF_B, OTHER_3 = name(b"PAXO 318", kind="0B"), Damage(3, CORRECTED, 0xD319)
BOTH, TAKEN = [group("6A", 0, pty=9), *2 * OF_B], NAMED + [oda(0x1234, "2A")] + A_TEXT
# Of the first turn of the other name the last pair is corrected, and of its second turn too, without the first pair.
NINE = 2 * NAMED + 2 * name(b"PAXO 319") + NAMED[:1]
AGAIN = each([11, 15], MEND[4]) + each([12, 16], LOSE[4])
# Of the second turn only one segment is heard.
GAP = each([5, 6, 7], *LOSE.values()) + each([0, 4, 9, 10, 11, 12], LOSE[4])
# Of classes 1 and 32, and of classes 1 and 4 alone.
TAGGED = [*NAMED[:1], oda(0x4BD7, "11A"), *text(b"Title Album Station\r")]
TAGGED += 2 * [tags(1, 1, (1, 0, 4), (32, 12, 6)), tags(1, 1, (1, 6, 4)), tags(1, 1, (4, 6, 4))]
GUEST = NAMED + [(0xD319, *group("6A", 0, pty=5)[1:])] + NAMED
PAXO = ["PAXO 318"]
# By their titles, groups with their damage, the items, and the values that are told of these.
CASES: Dict[str, Tuple[List[Words], List[Tuple[int, Damage]], str, List[Any]]] = {
    "corrected blocks alone give no PI": (THRICE, each(range(12), MEND[1], LOSE[3]), "pi tp pty ps", []),
    "corrected blocks alone give no flags": (THRICE, each(range(12), MEND[2]), "pty tp", []),
    "a corrected block 2 once": (NAMED, each(range(4), MEND[2]), "ps", []),
    "a corrected block 2 once, of a known programme": (TWICE[:5], each(range(1, 5), MEND[2]), "ps", []),
    "a corrected block 2 again": (THRICE, each(range(12), MEND[2]), "ps", PAXO),
    "a corrected block 4 once": (NAMED, each(range(4), MEND[4]), "ps", []),
    "a corrected block 4 again": (THRICE, each(range(12), MEND[4]), "ps", PAXO),
    "a corrected pair beside three valid ones": (NAMED, each([2], MEND[4]), "ps", PAXO),
    "two corrected pairs beside two valid ones": (NAMED, each([1, 2], MEND[4]), "ps", []),
    "valid blocks of groups that are not whole, thrice": (THRICE, each(range(12), LOSE[3]), "ps", PAXO),
    "valid blocks of groups that are not whole, once": (NAMED, each(range(4), LOSE[3]), "ps", []),
    "a corrected block, then a valid one": (TWICE, LACKING + each(range(1, 5), MEND[4]), "ps", PAXO),
    "a valid block, then a corrected one": (TWICE, LACKING + each(range(5, 9), MEND[4]), "ps", PAXO),
    "a pair that is corrected twice alike": (NINE, AGAIN, "ps", [*PAXO, "PAXO 319"]),
    "a turn of which one segment is heard": (4 * NAMED, GAP, "ps", PAXO),
    "a wrong correction once": (THRICE, [(5, Damage(4, CORRECTED, 0x5151))], "ps", PAXO),
    "a value in between breaks a row": (TURNS, each(range(6), LOSE[3]), "pty", []),
    "halves of groups make a text": (5 * A_TEXT, HALVES, "rt", ["A text"]),
    "a text of which blocks 4 were lost": (3 * A_TEXT, each(range(6), LOSE[4]), "rt", []),
    "a text whose flag does not count": (3 * A_TEXT, each(range(6), MEND[2]), "rt rt_ab", []),
    "pairs under a flag that does not count": (STRAYS, each([5, 7], LOSE[1]), "rt rt_ab", ["A", STAYS]),
    "clock time needs a valid group": (CLOCKS, each([4, 5, 6], MEND[1]), "ct", []),
    "a PI once in a corrected block": (2 * NAMED, [(4, Damage(1, CORRECTED, 0xD319))], "pi", ["D318"]),
    "a group of a PI that does not count": (GUEST, each([4], LOSE[3]), "pi pty", ["D318", 10]),
    "blocks 1 and 3 that name two programmes": (BOTH, each(range(1, 9), OTHER_3), "pi ps pty", ["D318", 9]),
    "a programme by block 3 of version B": (3 * OF_B, each(range(12), LOSE[1]), "pi ps", ["D318", *PAXO]),
    "a programme by blocks 2 and 3 of it": (3 * OF_B, each(range(12), LOSE[1], LOSE[4]), "pi ps", ["D318"]),
    "a feature in corrected blocks": (TRAFFIC, each([4, 5], MEND[2]), "tmc", []),
    "a feature once in a valid block": (TRAFFIC, each([4], LOSE[4]) + each([5], MEND[2]), "tmc", []),
    "a feature in two valid blocks": (TRAFFIC, each([4, 5], LOSE[4]), "tmc", [True]),
    "tags of three pairs of classes in turn": (
        *(TAGGED, each(range(7, 13), LOSE[1]), "rt_plus:item.title", ["Title", "Album"]),
    ),
    "a TMC service by a variant with another one in between": (
        *(NAMED + [oda(0xCD46, "8A", bits) for bits in (0x0066, 0x2066, 0x0066)], each([4, 5, 6], LOSE[1])),
        *("tmc_service", []),
    ),
    "zeros that are corrected, and lost the next time": (
        *(2 * type_name(b"Jazz\0\0\0\0"), [(1, MEND[3]), (3, LOSE[3])], "ptyn", ["Jazz"]),
    ),
    "an application by a wrong correction": (TAKEN, each([4], MEND[4]), "rt oda:1234", ["A text"]),
}


@pytest.mark.parametrize("title", CASES)
def test_values_that_count(title: str) -> None:
    groups, damage, items, expected = CASES[title]
    assert of(groups, damage, *items.split()) == expected


def test_another_programme_is_another_station() -> None:
    """What was said before the change says nothing of the other one, alike or not."""
    found = [entry[1:4:2] for entry in events_of(NAMED + OTHER[:2]) if entry.item in ("pi", "pty", "ps")]
    assert found == [(PI, "D318"), (PI, 10), (PI, "PAXO 318"), (0xD319, "D319"), (0xD319, 10)]


def test_a_group_without_pi_after_an_acquisition_is_of_no_programme() -> None:
    damage = each(range(2, 12), LOSE[1])
    assert told(events_of(THRICE, damage), "ps") == PAXO
    assert told(events_of(THRICE, damage, acquired=(0, 2)), "ps") == []
    # Nor if the acquisition came in a chunk of its own.
    assert told(fed(Decoder(), rows_of(THRICE, damage, (0, 2)), 1), "ps") == []


def test_blocks_2_and_3_of_two_versions_are_passed_over() -> None:
    rows = rows_of([group("6A", 0, pty=9), *2 * name(b"PAXO 318", 4 * [PI])])
    assert told(Decoder().feed(rows), "ps", "pty") == [9, 10, "PAXO 318"]
    rows["offset3"][2:] = 4
    assert told(Decoder().feed(rows), "ps", "pty", "af") == [9]


def test_variants_in_turn_come_twice_alike() -> None:
    """The two variants of a TMC service alternate, with one of another application; each of them counts by itself."""
    groups = NAMED + 2 * [oda(0xCD46, "8A", 0x0066), oda(0xCD47, "8A", 0x00A6), oda(0xCD46, "8A", 0x6280)]
    found = of(groups, each(range(4, 10), LOSE[1]), "tmc_service")
    assert [(one["location_table"], one.get("service")) for one in found] == [(1, None), (2, None), (2, 10)]


def test_a_channel_of_both_versions_is_told_by_the_first_group() -> None:
    events = events_of([*NAMED, group("5B", 17), group("5A", 17, 1, 2)])
    assert [event.place for event in events if event.item == "tdc:17"] == [4 * 104]


# ---- the rule beside a plain reading of it


def plain(values: Sequence[Tuple[int, bool, bool]]) -> List[int]:
    """The values of one part that count, from the received values: each with whether its group is whole and its blocks
    are valid."""
    found: List[int] = []
    last: Optional[int] = None
    trusted = False
    for value, whole, sound in values:
        again = value == last
        trusted = sound or (again and trusted)
        last = value
        if whole or (again and trusted):
            if not found or found[-1] != value:
                found.append(value)
    return found


@settings(max_examples=100, deadline=None)
@given(st.lists(st.tuples(st.integers(0, 3), *4 * [st.booleans()]), max_size=40))
def test_programme_types_count_by_the_plain_rule(received: List[Tuple[int, bool, bool, bool, bool]]) -> None:
    """Groups with a valid PI, so that only block 2 matters: its value, whether it was corrected, whether others were
    not valid."""
    groups = [group("6A", 0, pty=9), *(group("6A", 0, pty=entry[0]) for entry in received)]
    damage, values = [], [(9, True, True)]
    for number, (value, corrected, lost3, lost4, corrected4) in enumerate(received, 1):
        bad = [
            (2, CORRECTED, corrected),
            (3, LOST, lost3),
            (4, LOST if lost4 else CORRECTED, lost4 or corrected4),
        ]
        damage += [(number, Damage(block, kind)) for block, kind, is_bad in bad if is_bad]
        values.append((value, not any(is_bad for *_, is_bad in bad), not corrected))
    assert told(events_of(groups, damage), "pty") == plain(values)


@settings(max_examples=100, deadline=None)
@given(st.lists(st.tuples(st.sampled_from([0xD318, 0xD319, 0xD31A]), *2 * [st.booleans()]), max_size=30))
def test_programmes_count_as_the_plain_rule_says(received: List[Tuple[int, bool, bool]]) -> None:
    groups = [group("6A", 0, pi=pi) for pi, _, _ in received]
    bad = [(number, *flags) for number, (_, *flags) in enumerate(received)]
    damage = [(number, Damage(1, CORRECTED)) for number, corrected, _ in bad if corrected]
    damage += [(number, Damage(4, LOST)) for number, _, lost in bad if lost]
    values = [(pi, not (corrected or lost), not corrected) for pi, corrected, lost in received]
    assert told(events_of(groups, damage), "pi") == [f"{pi:04X}" for pi in plain(values)]


# ---- any groups at all

KINDS = st.sampled_from([0, 0, 2, 2, 3, 10, 14, 11, 1, 4, 8, 5, 6, 7, 9, 12, 13, 15])
APPLICATIONS_AND_LISTS = [0x4BD7, 0xCD46, 0x6552, 0x0093, 0xE112, 0xE512, 0x1278, 0x0D0D, 0xD312]
SOME_WORD = st.one_of(st.integers(0, 0xFFFF), st.sampled_from(APPLICATIONS_AND_LISTS))
SECOND = st.tuples(KINDS, st.integers(0, 1), st.integers(0, 0x7FF))
ANY = st.tuples(st.sampled_from([PI, PI, PI, PI, 0x1234]), SECOND, SOME_WORD, SOME_WORD)
WRONG = st.one_of(st.none(), st.integers(0, 0xFFFF))
ONE_BAD = st.builds(Damage, st.integers(1, 4), st.sampled_from([LOST, CORRECTED]), WRONG)
DAMAGE = st.tuples(st.integers(0, 59), ONE_BAD)


def words_of(drawn: Sequence[Any]) -> List[Words]:
    return [
        (pi, kind << 12 | version << 11 | low, pi if version else third, fourth)
        for pi, (kind, version, low), third, fourth in drawn
    ]


@settings(max_examples=100, deadline=None)
@given(st.lists(ANY, max_size=60), st.lists(DAMAGE, max_size=30), st.sets(st.integers(0, 59), max_size=3))
def test_any_groups_decode_alike_in_chunks(drawn: Sequence[Any], damage: Any, acquired: Any) -> None:
    rows = rows_of(words_of(drawn), damage, tuple(acquired))
    whole = Decoder().feed(rows)
    assert fed(Decoder(), rows, 1) == fed(Decoder(), rows, 7) == whole
    check_order(whole)


def check_order(events: Sequence[Event]) -> None:
    """Events are in order of place, and each says the value before it."""
    held: dict[str, Any] = {}
    place = -1
    for event in events:
        assert event.place >= place
        place = event.place
        if event.item == "pi":
            assert event.before == held.get("pi")
            held = {"pi": event.value}
        else:
            assert event.before == held.get(event.item) and event.value != event.before
            held[event.item] = event.value


def sample(seed: int, count: int) -> Any:
    """The rows of a random station, with damage to a sixth of the groups' blocks, and acquisitions."""
    groups = Station(seed).groups(count)
    damage = damage_of(groups, seed, 0.16)
    return rows_of([said.words for said in groups], damage, tuple(range(0, count, 100)))


def fed(decoder: Decoder, rows: Any, size: int = 10**6) -> List[Event]:
    """The events of rows that come in chunks of this size."""
    return [event for k in range(0, len(rows), size) for event in decoder.feed(rows[k : k + size])]


@pytest.mark.parametrize("seed", range(12))
def test_news_are_all_that_matters(seed: int) -> None:
    """A decoder that looks at every value that counts tells the same, but for lists of frequencies, which it may
    complete earlier."""
    rows = sample(seed, 1500)
    told_by = (Decoder(everything=value).feed(rows) for value in (False, True))
    news, everything = ([event for event in found if event.item[:2] != "af"] for found in told_by)
    assert news == everything


@pytest.mark.parametrize("seed, size", [(0, 1), (1, 3), (2, 40), (3, 500)])
def test_chunks_of_a_station_make_no_difference(seed: int, size: int) -> None:
    rows = sample(seed, 500)
    assert fed(Decoder(), rows, size) == fed(Decoder(), rows)


@pytest.mark.parametrize("bad", [0.0, 0.02])
def test_a_text_that_begins_anew_early_is_the_same_in_chunks(bad: float) -> None:
    """The simulated station sends its segments out of order: read one by one or passed at once, the changes are the same."""
    words = [Programme(PI, "ALPHA", "Now: nothing much").group(n) for n in range(6000)]
    chance = random.Random(1)
    damage = [(n, Damage(4, LOST)) for n in range(6000) if chance.random() < bad]
    rows = rows_of(words, damage)
    whole = Decoder(lapses=True).feed(rows)
    assert fed(Decoder(lapses=True), rows, 100) == whole and len(told(whole, "rt")) > 100


OTHER_FM, LETTERS = name(b"OTHER FM"), text(b"Abcdefgh")
CUT = {
    "a name that changes within a turn": 2 * NAMED + NAMED[:2] + OTHER_FM[2:] + 6 * OTHER_FM,
    "a text that fills its segments": 20 * text(b"A text\r"),
    "a text that becomes its first segment": 3 * LETTERS + 20 * LETTERS[:1],
}


@pytest.mark.parametrize("title", CUT)
def test_names_and_texts_are_the_same_wherever_they_are_cut(title: str) -> None:
    rows = rows_of(CUT[title])
    whole = Decoder(lapses=True).feed(rows)
    for cut in range(1, len(rows)):
        decoder = Decoder(lapses=True)
        assert decoder.feed(rows[:cut]) + decoder.feed(rows[cut:]) == whole, cut


AB, A_B = text(b"ABCDEF\r"), text(b"ABCDEFxx")[1:]
# After the first 20 groups, the next that say the name again are passed at once.
OFTEN, NEXT = NAMED + 3 * NAMED[:1] + 3 * NAMED, OTHER_FM[3:] + 5 * OTHER_FM
PASSED = {
    "a name whose last segment changes": (OFTEN + NAMED[:3] + NEXT, []),
    "the same after a segment that is repeated": (OFTEN + NAMED[:2] + NAMED[1:3] + NEXT, []),
    # The first group of another chunk ends the second whole turn after the lost group.
    "a text without an end, of which a group was lost": (
        5 * text(b"Without any end here"),
        each([4], *LOSE.values()),
    ),
    "a text that ends early twice, and whose end is in doubt": (
        20 * AB + AB[:1] + AB + 2 * AB[:1] + A_B + AB[:1] + A_B + 8 * AB[:1],
        each([45], MEND[4]),
    ),
}


@pytest.mark.parametrize("title", PASSED)
def test_groups_that_are_passed_at_once_say_the_same_as_one_by_one(title: str) -> None:
    """Up to 16 are read one by one."""
    rows = rows_of(*PASSED[title])
    assert fed(Decoder(lapses=True), rows, 16) == Decoder(lapses=True).feed(rows)


@settings(max_examples=100, deadline=None)
@given(st.lists(ANY, max_size=60), st.lists(DAMAGE, max_size=30))
def test_news_of_any_groups_are_all_that_matters(drawn: Sequence[Any], damage: Any) -> None:
    rows = rows_of(words_of(drawn), damage)
    assert Decoder().feed(rows) == Decoder(everything=True).feed(rows)


@settings(max_examples=100, deadline=None)
@given(st.lists(ANY, min_size=1, max_size=60))
def test_nothing_counts_if_each_block_was_corrected_or_each_group_comes_once(drawn: Sequence[Any]) -> None:
    groups = words_of(drawn)
    assert events_of(groups, each(range(len(groups)), *MEND.values())) == []
