"""Names and texts in segments. One is told if all of it was sent in one turn, or in turns that agree.

A turn is a run of segments whose numbers rise. A pair of characters is valid if the blocks that carry it are, confirmed if it came twice
alike, and else single. The rules are this project's; docs/ACCURACY.md has the simulation that chose their constants:

- A turn that has all pairs is told at its last pair. At the end of each turn its pairs join those of earlier turns.
- Few pairs of a text that is told may be single: two if at least 14 of the last 16 pairs were valid, one if 6 were.
- A valid pair that differs from an earlier turn's ends the text. A corrected one that differs makes the pair unknown,
  and ends the text if it comes twice alike.
- A pair of a name joins later turns for `NAME_TURNS` turns, a pair of a text for `TEXT_BITS`.
- An outage of more than `OUTAGE_BITS` ends every name and text. So does a time in which a whole turn can have been
  missed, by the pace of the last segments, unless all pairs are those of the text that was told."""
from collections import deque
from functools import cached_property
from typing import Any, Deque, Dict, Generator, Iterator, List, NamedTuple, Optional, Tuple

import numpy

from .charset import END_OF_TEXT
from .evidence import Array

RECENT = 16
# The least number of valid pairs among the recent ones, and how many pairs may be single then.
SINGLES = ((14, 2), (6, 1))
NAME_TURNS = 4
TEXT_BITS = 60 * 1187.5
OUTAGE_BITS = 10 * 1187.5
UNKNOWN = -1
SINGLE, CONFIRMED, VALID = 0, 1, 2  # how far a pair can be trusted
# How many rows that say a text again are read one by one, before others are passed at once.
LEAST_READ = RECENT
FIRST_PASSED = 64 * LEAST_READ
# Place, the number of the segment among those that are unlike each other, run, and whether a turn can have been missed before.
Row = Tuple[int, int, int, bool]


class Shape(NamedTuple):
    """The layout of a name or text: its most segments, the pairs of characters in each, and where it may end.

    A name has all of its segments. A text may end before: by a pair that has the character `END_OF_TEXT`, or is it if
    characters are `wide`, or where its segments begin anew."""

    segments: int
    pairs: int
    is_text: bool = False
    wide: bool = False

    @property
    def size(self) -> int:
        return self.segments * self.pairs

    @property
    def ends(self) -> Dict[int, int]:
        """The pairs that have the end of a text, and how many of their bytes are before it."""
        if not self.is_text or self.wide:
            return {END_OF_TEXT: 0} if self.is_text else {}
        lower = {byte << 8 | END_OF_TEXT: 1 for byte in range(256)}
        return {**lower, **{END_OF_TEXT << 8 | byte: 0 for byte in range(256)}}


class Distinct:
    """Segments that are unlike each other: their numbers, and a column per pair of its value and validity, UNKNOWN for one not received."""

    def __init__(self, segment: Array, value: Array, valid: Array) -> None:
        self.segment, self.value, self.valid = segment, value, valid
        self._others: Tuple[Any, bool, Array] = (None, False, segment)

    def __getitem__(self, chosen: slice) -> "Distinct":
        return Distinct(self.segment[chosen], self.value[chosen], self.valid[chosen])

    @cached_property
    def rows(self) -> List[Tuple[int, Tuple[int, ...], List[bool]]]:
        """The same, to be read one by one."""
        return list(zip(self.segment.tolist(), map(tuple, self.value.tolist()), self.valid.tolist()))

    @cached_property
    def pairs(self) -> Array:
        """A bit for each pair that was received."""
        size = self.value.shape[1]
        bits = numpy.uint64(1) << (self.segment[:, None] * size + numpy.arange(size)).astype("u8")
        found: Array = numpy.bitwise_or.reduce(bits * (self.value != UNKNOWN), axis=1)
        return found

    def others(self, told: "WholeText", is_length: bool) -> Array:
        """Which have another pair than this text, or one after its end if it is known to have this length."""
        if self._others[:2] != (told, is_length):
            expected = numpy.array(told.said)[self.segment]
            differs = (self.value != expected) & (self.value != UNKNOWN)
            self._others = told, is_length, (differs & ((expected != UNKNOWN) | is_length)).any(axis=1)
        return self._others[2]


class Segments(NamedTuple):
    """Groups that carry segments of one name or text, a row each, in the order of time: `number` is the row in `said`. Two groups
    have the same `run` if every group between them was read. The text is another one where `generation` changes.
    """

    place: Array
    number: Array
    run: Array
    generation: Array
    said: Distinct

    def where(self, chosen: Any) -> "Segments":
        place, number, run, generation, said = self
        return Segments(place[chosen], number[chosen], run[chosen], generation[chosen], said)


class Turns:
    """Segments of one generation, and where turns begin among them."""

    def __init__(self, groups: Segments, pace: "Pace", last: int, run: int, is_text: bool) -> None:
        """After the segment `last` of this run."""
        self.place, self.number, self.run, _, self.said = groups
        self.size, self.segment = self.place.size, self.said.segment[self.number]
        # Whether a turn can have been missed before each.
        self.missed = pace.missed(self.place, self.segment)
        self.before = numpy.append(last, self.segment[:-1])
        self.turn = numpy.cumsum(self.missed | (self.segment <= self.before))
        # Where a turn of a text begins anew, and the group before was read.
        is_read = self.run == numpy.append(run, self.run[:-1])
        self.restarts = numpy.flatnonzero((self.segment == 0) & is_read & (self.before >= 0) & is_text)

    def rows(self, begin: int, end: int) -> List[Row]:
        columns = (self.place, self.number, self.run, self.missed)
        return list(zip(*(column[begin:end].tolist() for column in columns)))


# Two characters, how far they can be trusted, and the turn and the bit position of their last reception.
Pair = Tuple[int, int, int, int]


class Pace:
    """How fast the segments of a text come, which tells whether a whole turn can have been missed."""

    LEAST_SEGMENTS = 4

    def __init__(self, shape: Shape) -> None:
        self._is_text = shape.is_text
        self._segments = self.LEAST_SEGMENTS if shape.is_text else shape.segments
        self._place, self._segment = UNKNOWN, UNKNOWN
        self._bits = self._steps = numpy.zeros(RECENT, "i8")  # the bits and steps between the last segments

    def missed(self, place: Array, segment: Array) -> Array:
        """Whether as much time went by before each of the next segments as a turn more takes."""
        turns: Any = self._segments
        if self._is_text and segment.max() >= turns:
            turns = numpy.maximum.accumulate(numpy.append(turns, segment[:-1] + 1))
            self._segments = max(int(turns[-1]), int(segment[-1]) + 1)
        bits, steps = steps_of(place, self._place), steps_of(segment, self._segment)
        steps += (steps <= 0) * turns
        if self._place == UNKNOWN:
            bits[0] = steps[0] = 0
        self._bits, self._steps = numpy.append(self._bits, bits), numpy.append(self._steps, steps)
        of_bits, of_steps = map(_sums_before, (self._bits, self._steps))
        self._bits, self._steps = self._bits[-RECENT:], self._steps[-RECENT:]
        self._place, self._segment = int(place[-1]), int(segment[-1])
        missed: Array = (bits * of_steps >= (steps + turns) * of_bits) & (of_steps > 0)
        return missed


def steps_of(values: Array, before: int) -> Array:
    """How much each value is above the one before it."""
    steps = numpy.empty(values.size, "i8")
    steps[0] = values[0] - before
    numpy.subtract(values[1:], values[:-1], out=steps[1:])
    return steps


def _sums_before(values: Array) -> Array:
    """The sum of the last values before each, but the first ones."""
    sums = numpy.cumsum(values)
    sums[RECENT:] -= sums[:-RECENT].copy()
    return sums[RECENT - 1 : -1]


class WholeText:
    """A text that was told: its pairs, its characters, and what each of its segments says."""

    def __init__(self, pairs: List[int], last: int, shape: Shape) -> None:
        """`last` tells how many bytes of the last pair are before the end of the text, or UNKNOWN."""
        self.pairs, self.size = pairs, len(pairs)
        text = b"".join([value.to_bytes(2, "big") for value in pairs])
        self.text = text if last == UNKNOWN else text[: 2 * self.size - 2 + last]
        self.has_end = last != UNKNOWN
        known = pairs + [UNKNOWN] * (shape.size - self.size)
        self.said = [tuple(known[at : at + shape.pairs]) for at in range(0, shape.size, shape.pairs)]

    def differs(self, segment: int, values: Tuple[int, ...], is_length: bool) -> bool:
        """Whether a segment has another pair, or one after the end, if the text is known to have this length."""
        for value, own in zip(values, self.said[segment]):
            if value != own and value != UNKNOWN and (own != UNKNOWN or is_length):
                return True
        return False


class Message:
    """One name or text, as it is received."""

    def __init__(self, shape: Shape, lapses: bool) -> None:
        """With `lapses` a text that ends, and is whole again in the same group, is told again."""
        self._shape, self._lapses, self._ends = shape, lapses, shape.ends
        self._generation = self._run = UNKNOWN
        self._recent: Deque[bool] = deque(maxlen=RECENT)
        self._pace = Pace(shape)
        self._latest: Optional[WholeText] = None
        self._clear()

    @property
    def was_told(self) -> bool:
        """Whether the text holds that was told last."""
        return self._told is not None

    def _clear(self) -> None:
        self._turn, self._segment = 0, UNKNOWN
        self._earlier: Dict[int, Pair] = {}
        self._now: Dict[int, Pair] = {}
        self._may_end = False  # whether a pair of this turn may have the end of the text
        self._doubted: Dict[int, Pair] = {}
        self._last_segment = UNKNOWN
        self._length = 0  # in pairs, where no end of text says it
        self._told: Optional[WholeText] = None  # the text that holds

    def take(self, groups: Segments) -> Iterator[Tuple[int, Optional[bytes]]]:
        """The changes, each with its row: the characters of a text that is whole, or None if another text begins or the
        one that was told does not hold any more. However the groups are cut into chunks, the changes are the same.
        """
        if not groups.place.size:
            return
        changes = numpy.flatnonzero(steps_of(groups.generation, self._generation)).tolist()
        for begin, end in zip([0, *changes], [*changes, groups.place.size]):
            if begin == end:
                continue
            if self._generation != groups.generation[begin]:
                self._generation = int(groups.generation[begin])
                self._pace = Pace(self._shape)
                self._clear()
                yield begin, None
            rows = groups.where(slice(begin, end)) if changes else groups
            turns = Turns(rows, self._pace, self._segment, self._run, self._shape.is_text)
            for row, text in self._take(turns):
                yield begin + row, text

    def _take(self, turns: Turns) -> Iterator[Tuple[int, Optional[bytes]]]:
        """The changes within a generation. While a text holds, rows are passed at once, but for the first ones."""
        begin, length, most = 0, 4 * LEAST_READ, FIRST_PASSED
        while begin < turns.size:
            end = min(begin + most, turns.size)
            if self._told and end - begin > LEAST_READ:
                begin, cuts = self._pass(turns, begin, end, self._told)
                for row in cuts if self._lapses else ():
                    yield row, None
                    yield row, self._told.text
                most *= 8
                if begin == end:
                    continue
            most = FIRST_PASSED
            rows = turns.rows(begin, begin + length)
            read = yield from self._read(rows, turns.said, begin)
            length = 2 * length if read == len(rows) else 4 * LEAST_READ
            begin += read

    def _read(
        self, rows: List[Row], said: Distinct, begin: int
    ) -> Generator[Tuple[int, Optional[bytes]], None, int]:
        """Takes rows one by one until a text has held for some, and returns how many."""
        row = 0
        while row < len(rows):
            if self._told:
                end = min(row + LEAST_READ, len(rows))
                row = self._follow(rows, row, end, said, self._told)
                if row == end:
                    return row
                self._told, self._may_end = None, True
                yield begin + row, None
            place, number, run, is_missed = rows[row]
            if is_missed:
                self._clear()
                yield begin + row, None
            segment, values, valid = said.rows[number]
            if segment <= self._segment:
                self._end_turn(segment == 0 and run == self._run)
                earlier = self._earlier.items()
                text = self._whole({at: pair for at, pair in earlier if self._is_fresh(pair, place)})
                if text is not None:
                    yield begin + row, text
                    continue
            self._segment, self._run = segment, run
            if self._hear(values, valid, place):
                yield begin + row, None
            may_be_whole = self._may_end or len(self._now) >= (self._length or self._shape.size)
            text = self._whole(self._now) if may_be_whole else None
            if text is not None:
                yield begin + row, text
            row += 1
        return row

    # ---- while the text that was told holds

    def _pass(self, turns: Turns, begin: int, end: int, told: WholeText) -> Tuple[int, List[int]]:
        """Passes rows that say the told text again: where they end, and in which of them it ended early and was whole again at once."""
        other = turns.said.others(told, self._length == told.size)[turns.number[begin:end]]
        cuts = turns.restarts
        if cuts.size:
            cuts = cuts[(cuts >= begin) & (cuts < end)]
            size = (turns.before[cuts] + 1) * self._shape.pairs
            if not told.has_end:
                other[cuts[size > told.size] - begin] = True
            cuts = cuts[size < told.size]
        if cuts.size:
            other[cuts[~self._are_kept(turns, slice(begin, end), cuts, told)] - begin] = True
        first = int(other.argmax())
        end = begin + first if other[first] else end
        cuts = cuts[cuts < end]
        if end > begin:
            self._note(turns, begin, end)
        if cuts.size:
            last, ending = [self._last_segment, *turns.before[cuts].tolist()][-2:]
            self._length = (ending + 1) * self._shape.pairs if last == ending else 0
            self._last_segment = ending
            # Pairs after the end of the text are forgotten whenever it is whole.
            pairs, place = {**self._earlier, **self._now}, turns.place[cuts[-1]]
            self._part({at: pair for at, pair in pairs.items() if at < told.size or pair[3] >= place})
        return end, cuts.tolist()

    def _are_kept(self, turns: Turns, rows: slice, cuts: Array, told: WholeText) -> Array:
        """Whether the told text has an end, and before each row no turn was missed, and all its pairs came lately, in received segments."""
        pairs, size = {**self._earlier, **self._now}, self._shape.pairs
        kept: Array = ~turns.missed[cuts] & told.has_end
        if not kept.any():
            return kept
        is_known = (turns.said.value != UNKNOWN).all(axis=1)
        known = numpy.where(is_known, turns.said.segment, UNKNOWN)[turns.number[rows]]
        for segment in range(-(-told.size // size)):
            at = rows.start + numpy.flatnonzero(known == segment)
            first = min(pairs[one][3] for one in range(segment * size, min(told.size, (segment + 1) * size)))
            places = numpy.append(first, turns.place[at])
            kept &= places[numpy.searchsorted(at, cuts)] >= turns.place[cuts] - TEXT_BITS
        return kept

    def _note(self, turns: Turns, begin: int, end: int) -> None:
        """Notes when each pair came last in rows that say the told text again, and which of the last ones are valid."""
        size, first = self._shape.pairs, self._turn - (int(turns.turn[begin - 1]) if begin else 0)
        heard = numpy.bitwise_or.reduce(turns.said.pairs[turns.number[begin:end]])
        count = bin(int(heard)).count("1")
        found: Dict[int, Pair] = {}
        flags: List[bool] = []
        start = end
        while start > begin and (len(found) < count or len(flags) < RECENT):
            rows = slice(max(begin, start - RECENT), start)
            columns = (turns.number[rows], turns.turn[rows] + first, turns.place[rows])
            for number, turn, place in zip(*(column[::-1].tolist() for column in columns)):
                segment, values, valid = turns.said.rows[number]
                for column in range(size - 1, -1, -1):
                    if values[column] != UNKNOWN:
                        flags.append(valid[column])
                        found.setdefault(segment * size + column, (values[column], VALID, turn, place))
            start = rows.start
        last = end - 1
        self._turn, self._segment = first + int(turns.turn[last]), int(turns.segment[last])
        self._run = int(turns.run[last])
        self._part({**self._earlier, **self._now, **found})
        self._recent.extend(flags[::-1])

    def _part(self, pairs: Dict[int, Pair]) -> None:
        self._now = {position: pair for position, pair in pairs.items() if pair[2] == self._turn}
        self._earlier = {position: pair for position, pair in pairs.items() if pair[2] != self._turn}

    def _follow(self, rows: List[Row], row: int, end: int, said: Distinct, told: WholeText) -> int:
        """Notes when each pair came last in the rows that say the told text again, and returns the first that does not, or the end."""
        size, now, before, is_length = self._shape.pairs, self._now, self._segment, self._length == told.size
        for row in range(row, end):
            place, number, run, is_missed = rows[row]
            segment, values, valid = said.rows[number]
            if values != told.said[segment] and told.differs(segment, values, is_length):
                return row
            if segment <= before or is_missed:
                is_whole = segment == 0 <= before and self._shape.is_text and run == self._run
                # The turn ended before the text, or after it, where no end of text says that it may not.
                if is_whole and (
                    (before + 1) * size < told.size or (before + 1) * size > told.size and not told.has_end
                ):
                    return row
                self._next_turn()
                now = self._now
            self._segment = before = segment
            self._run = run
            for position, (value, is_valid) in enumerate(zip(values, valid), segment * size):
                if value != UNKNOWN:
                    now[position] = value, VALID, self._turn, place
                    self._recent.append(is_valid)
        return end

    def _next_turn(self) -> None:
        self._earlier.update(self._now)
        self._now, self._may_end = {}, False
        self._turn += 1
        self._segment = UNKNOWN

    # ---- while none does

    def _hear(self, values: Tuple[int, ...], valid: List[bool], place: int) -> bool:
        """Takes the pairs of a group, and tells whether another text has begun."""
        has_begun, position = False, self._segment * self._shape.pairs
        for value, is_valid in zip(values, valid):
            if value != UNKNOWN:
                self._recent.append(is_valid)
                has_begun |= self._hear_pair(position, value, VALID if is_valid else SINGLE, place)
            position += 1
        return has_begun

    def _hear_pair(self, position: int, value: int, grade: int, place: int) -> bool:
        earlier, doubted = self._earlier.get(position), self._doubted.pop(position, None)
        self._may_end |= value in self._ends
        if earlier and not self._is_fresh(earlier, place):
            earlier = None
        is_other = earlier is not None and earlier[0] != value
        if is_other and grade != VALID:
            del self._earlier[position]
            self._doubted[position] = value, grade, self._turn, place
            return False
        is_again = doubted is not None and doubted[0] == value
        if is_other or is_again:
            self._begin_anew(doubted[2] if doubted and not is_other else self._turn)
        elif earlier:
            grade = max(grade, earlier[1], CONFIRMED)
        self._now[position] = value, max(grade, CONFIRMED) if is_again else grade, self._turn, place
        return is_other or is_again

    def _begin_anew(self, turn: int) -> None:
        """Another text, to which only the pairs of this turn and of later ones belong."""
        for position, pair in self._doubted.items():
            if pair[2] == self._turn:
                self._now[position] = pair
        self._earlier = {position: pair for position, pair in self._earlier.items() if pair[2] >= turn}
        self._doubted = {}
        self._last_segment, self._length = UNKNOWN, 0

    def _end_turn(self, is_complete: bool) -> None:
        """The end of a turn; if it `is_complete`, with its last segment. Two such in a row that end alike have the text's length."""
        if self._shape.is_text and is_complete:
            ends_alike = self._segment == self._last_segment
            self._length = (self._segment + 1) * self._shape.pairs if ends_alike else 0
            self._last_segment = self._segment
        self._next_turn()

    def _is_fresh(self, pair: Pair, place: int) -> bool:
        return place - pair[3] <= TEXT_BITS if self._shape.is_text else self._turn - pair[2] <= NAME_TURNS

    def _whole(self, pairs: Dict[int, Pair]) -> Optional[bytes]:
        """The characters of a text whose pairs are all known and trusted. It is told then."""
        ends = [position for position, pair in pairs.items() if pair[0] in self._ends]
        found = []
        for position in range(min(ends) + 1 if ends else self._length or self._shape.size):
            pair = pairs.get(position)
            if pair is None:
                return None
            found.append(pair)
        share = sum(self._recent) * RECENT
        most = next((most for valid, most in SINGLES if share >= valid * len(self._recent)), 0)
        if sum([grade == SINGLE for _, grade, _, _ in found]) > most:
            return None
        return self._tell(found, self._ends[found[-1][0]] if ends else UNKNOWN)

    def _tell(self, found: List[Pair], last: int) -> bytes:
        """Notes the pairs of the text that is told, all of which are trusted from now on."""
        values = [value for value, _, _, _ in found]
        if not self._latest or self._latest.pairs != values:
            self._latest = WholeText(values, last, self._shape)
        self._told, self._may_end = self._latest, True
        self._doubted = {}
        self._part({at: (value, VALID, turn, place) for at, (value, _, turn, place) in enumerate(found)})
        return self._latest.text
