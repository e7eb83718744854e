"""Which received values count, and which of those are news: by numpy, since a station says the same thing all day.

A part is whatever is sent under one address: a flag, two characters of a name, the PI. A part counts in a group whose four blocks are all
valid, and when it is received twice in a row alike, of which once in valid blocks. So corrected blocks alone say nothing.

Parts belong to messages, such as the four pairs of a PS. News of a message is a part that differs from what counted
before, and the first of each other part after such a change: what a decoder of messages needs, and all that it needs."""
from typing import Any, Dict, List, NamedTuple, Optional, Tuple

import numpy
from numpy.typing import NDArray

Array = NDArray[Any]

# A key is a kind, the message among those of its kind, and the part's position in the message.
POSITION_BITS, KIND_SHIFT = 16, 40
MOST_PARTS = 20000
UNKNOWN = -1  # in place of a value that no part has


def key_of(kind: int, message: Any, position: Any) -> Any:
    return kind << KIND_SHIFT | message << POSITION_BITS | position


class Observations(NamedTuple):
    """Received values: `at` is the number of the group, or of one of several that are alike."""

    key: Array
    at: Array
    value: Array
    whole: Array
    sound: Array

    def where(self, chosen: Any) -> "Observations":
        return Observations(*(column[chosen] for column in self))

    def by_key(self) -> "Observations":
        return self.where(numpy.argsort(self.key, kind="stable"))

    def spread(self, of: Array) -> "Observations":
        """Those of all groups, in the order of time; `of` tells for each which of the groups it is alike to."""
        count = numpy.bincount(self.at, minlength=int(of.max()) + 1)
        by_row = numpy.argsort(self.at, kind="stable")
        at = numpy.flatnonzero(count[of])
        row = of[at]
        if count.max() > 1:
            times = count[row]
            before = numpy.cumsum(times) - times
            number = numpy.arange(before[-1] + times[-1]) - numpy.repeat(before, times)
            at, row = numpy.repeat(at, times), numpy.repeat(row, times)
        else:
            number = 0
        found = self.where(by_row[(numpy.cumsum(count) - count)[row] + number])
        return found._replace(at=at)


class News(NamedTuple):
    """Values that count."""

    key: Array
    at: Array
    value: Array


NOTHING = News(*(numpy.empty(0, "i8") for _ in range(3)))
NONE_SEEN = Observations(*(numpy.empty(0, kind) for kind in ("i8", "i8", "i8", "?", "?")))


class PartState(NamedTuple):
    """A part's value received last and whether valid blocks brought it; what counted last, and in which state of its message."""

    last: int
    trusted: bool
    counted: Optional[int] = None
    state: int = -1


def latest(chosen: Array) -> Array:
    """For each place the last chosen one up to it, or -1."""
    return numpy.maximum.accumulate(numpy.where(chosen, numpy.arange(chosen.size), -1))


def _firsts(key: Array) -> Array:
    first = numpy.ones(key.size, bool)
    first[1:] = key[1:] != key[:-1]
    return first


class Evidence:
    """What counted so far of a programme."""

    def __init__(self) -> None:
        self.parts: Dict[int, PartState] = {}
        self.states: Dict[int, int] = {}

    def news(self, seen: Observations, of: Array, everything: bool = False) -> News:
        """What counts of these observations and is news, or with `everything` all that counts. They are of groups that are
        unlike each other; `of` tells for each group which of these it is alike to."""
        if not seen.key.size:
            return NOTHING
        seen = seen.by_key()
        starts = numpy.flatnonzero(_firsts(seen.key))
        parts = [self.parts.get(name) for name in seen.key[starts].tolist()]
        if not everything:
            seen = seen.where(self._are_open(seen, starts, parts, of))
            news = self._news(self.counted(seen.spread(of))) if seen.key.size else NOTHING
        else:
            last = [part.last if part and part.trusted else UNKNOWN for part in parts]
            are_again = (seen.value == numpy.repeat(last, numpy.diff(starts, append=seen.key.size))).all()
            news = News(*seen.spread(of)[:3]) if are_again else self.counted(seen.spread(of))
        if len(self.parts) > MOST_PARTS:
            # Noise gives parts that never count: they are forgotten when there are too many.
            self.parts = {name: part for name, part in self.parts.items() if part.counted is not None}
        return news

    def _are_open(
        self, seen: Observations, starts: Array, parts: List[Optional[PartState]], of: Array
    ) -> Array:
        """Which observations are of messages that may have news. All others have the values that counted last, or wrong
        corrections: their parts are noted."""
        sizes, message = numpy.diff(starts, append=seen.key.size), seen.key[starts] >> POSITION_BITS
        states = [self.states.get(one, 0) for one in message.tolist()]
        held = [
            part.last if part and part.last == part.counted and part.state == state else UNKNOWN
            for part, state in zip(parts, states)
        ]
        other = seen.value != numpy.repeat(held, sizes)
        may_change = numpy.logical_or.reduceat(other & (seen.whole | seen.sound), starts)
        may_change |= numpy.array(held) == UNKNOWN
        bounds = numpy.flatnonzero(_firsts(message))
        is_open = numpy.logical_or.reduceat(may_change, bounds)
        is_open = numpy.repeat(is_open, numpy.diff(bounds, append=message.size))
        trusted = numpy.array([part is not None and part.trusted for part in parts])
        is_noted = numpy.logical_or.reduceat(other | seen.sound & ~numpy.repeat(trusted, sizes), starts)
        latest = numpy.zeros(int(of.max()) + 1, "i8")
        latest[of] = numpy.arange(of.size)
        for at in numpy.flatnonzero(is_noted & ~is_open).tolist():
            rows = slice(starts[at], starts[at] + sizes[at])
            self._note(seen.where(rows), other[rows], latest, bool(trusted[at]))
        return numpy.repeat(is_open, sizes)

    def _note(self, seen: Observations, other: Array, latest: Array, is_trusted: bool) -> None:
        """Notes the last value of a part without news, and whether it is trusted: by the latest group of each unlike the others."""
        name, at = int(seen.key[0]), latest[seen.at]
        last_other = at[other].max(initial=-1)
        trusted = (at[seen.sound & ~other] > last_other).any() or is_trusted and last_other < 0
        value = int(seen.value[at.argmax()])
        self.parts[name] = self.parts[name]._replace(last=value, trusted=bool(trusted))

    def counted(self, seen: Observations) -> News:
        """What counts of these observations, which are in the order of time."""
        if not seen.key.size:
            return NOTHING
        if (seen.key[1:] < seen.key[:-1]).any():
            seen = seen.by_key()
        counts = self._counts(seen)
        return News(*(column[counts] for column in seen[:3]))

    def _news(self, counted: News) -> News:
        names = counted.key[_firsts(counted.key)].tolist()
        changed = self._changed(counted)
        is_stale = any(self.parts[name].state != self.states.get(name >> POSITION_BITS, 0) for name in names)
        if not (is_stale or changed.any()):
            return NOTHING
        chosen = self._fresh(counted, self._states_of(counted, changed))
        return News(*(column[chosen] for column in counted))

    def _counts(self, seen: Observations) -> Array:
        """Which of the observations, in the order of their keys, count."""
        first = _firsts(seen.key)
        starts = numpy.flatnonzero(first)
        again = ~first
        again[1:] &= seen.value[1:] == seen.value[:-1]
        trusted_before = numpy.zeros(first.size, bool)
        names = seen.key[starts].tolist()
        known = [self.parts.get(name) for name in names]
        for start, part, value in zip(starts.tolist(), known, seen.value[starts].tolist()):
            if part and part.last == value:
                again[start] = True
                trusted_before[start] = part.trusted
        run = latest(first | ~again)
        trusted = (latest(seen.sound) >= run) | trusted_before[run]
        ends = numpy.append(starts[1:], first.size) - 1
        for name, part, value, trust in zip(names, known, seen.value[ends].tolist(), trusted[ends].tolist()):
            self.parts[name] = part._replace(last=value, trusted=trust) if part else PartState(value, trust)
        counts: Array = seen.whole | again & trusted
        return counts

    def _changed(self, counted: News) -> Array:
        """Which values differ from the one of the part that counted before."""
        changed = numpy.ones(counted.key.size, bool)
        changed[1:] = counted.value[1:] != counted.value[:-1]
        starts = numpy.flatnonzero(_firsts(counted.key))
        changed[starts] = [
            self.parts[name].counted not in (None, value)
            for name, value in zip(counted.key[starts].tolist(), counted.value[starts].tolist())
        ]
        return changed

    def _states_of(self, counted: News, changed: Array) -> Array:
        """The state of the message after each value that counts: how often parts of it changed."""
        message = counted.key >> POSITION_BITS
        bounds: List[int] = numpy.flatnonzero(_firsts(message)).tolist()
        names = message[bounds].tolist()
        known = [self.states.get(name, 0) for name in names]
        state = numpy.repeat(known, numpy.diff([*bounds, message.size]))
        # A group has one part of a message.
        for begin, end, name in zip(bounds, [*bounds[1:], message.size], names):
            ticks = numpy.sort(counted.at[begin:end][changed[begin:end]])
            if ticks.size:
                state[begin:end] += numpy.searchsorted(ticks, counted.at[begin:end], side="right")
                self.states[name] = self.states.get(name, 0) + ticks.size
        return state

    def _fresh(self, counted: News, state: Array) -> Array:
        """Whether the message has changed since the part counted last, which is noted."""
        first = _firsts(counted.key)
        starts = numpy.flatnonzero(first)
        fresh = numpy.ones(first.size, bool)
        fresh[1:] = state[1:] != state[:-1]
        names = counted.key[starts].tolist()
        fresh[starts] = [self.parts[name].state != now for name, now in zip(names, state[starts].tolist())]
        ends = numpy.append(starts[1:], first.size) - 1
        for name, value, now in zip(names, counted.value[ends].tolist(), state[ends].tolist()):
            self.parts[name] = self.parts[name]._replace(counted=value, state=now)
        return fresh


class Epochs:
    """The messages of a kind with an A/B flag: each turn of the flag begins another message."""

    def __init__(self, flags: News, flag: int, epoch: int) -> None:
        """From the flags that count, and the one and the number of the message before them."""
        self._at = flags.at
        self._flags = numpy.concatenate([[flag], flags.value])
        self._numbers = epoch + numpy.concatenate([[0], numpy.cumsum(self._flags[1:] != self._flags[:-1])])

    @property
    def last(self) -> Tuple[int, int]:
        """The flag and the number of the message after them."""
        return int(self._flags[-1]), int(self._numbers[-1])

    def flag(self, at: Array) -> Array:
        """The flag that holds in each of these groups; that of a group holds from itself on."""
        return self._flags[numpy.searchsorted(self._at, at, side="right")]

    def number(self, at: Array) -> Array:
        number: Array = self._numbers[numpy.searchsorted(self._at, at, side="right")]
        return number
