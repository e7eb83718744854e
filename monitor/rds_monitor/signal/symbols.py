"""From RDS around 0 Hz to differentially decoded bits: chip clock, pairs of chips, carrier phase, decisions.

A chip is half a biphase symbol; chips come at 2,375 a second, and the two of a symbol have opposite signs. Estimates
are by segments of the signal, from what is before and after: there is no loop that would have to lock."""

import math
from typing import NamedTuple, Optional

import numpy
from numpy.typing import NDArray

from .phase import PhaseTrack, Phases, bell
from .samples import Complexes, Reals, Signal

BIT_RATE = 1187.5
CHIP_RATE = 2 * BIT_RATE
TINY = float(numpy.finfo(float).tiny)
Bits = NDArray[numpy.uint8]


def powers(values: Complexes) -> Reals:
    return values.real * values.real + values.imag * values.imag


class Clocked(NamedTuple):
    """Chips, and of each segment that was answered: by which part of their rate they are too fast, and the coherence."""

    chips: Complexes
    fast: Reals
    coherence: Reals


class ChipClock:
    """Takes a sample at each chip. The signal's power, 0 between two unlike chips, has a line at the chip rate in the chips' phase."""

    CHIPS_PER_SEGMENT = 64
    REACH, WIDE = 14, 20  # segments of 27 ms
    RANGE = 0.003  # of the chip rate, on both sides
    COHERENT = 0.05  # 0.3 without noise, and some 0.01 of noise alone

    def __init__(self, rate: float):
        self._spacing = rate / CHIP_RATE
        self._length = round(self.CHIPS_PER_SEGMENT * self._spacing)
        self._turns = self._length / self._spacing  # of the line in a segment
        self._line = numpy.exp(-2j * math.pi * numpy.arange(self._length) / self._spacing)
        self._track = PhaseTrack(self.REACH, self.WIDE, 2 * math.pi * self.RANGE * self._turns, self.COHERENT)
        self._signal: Complexes = numpy.zeros(0, complex)  # from the last chip on
        self._first = 0  # the place of its first sample
        self._segments = 0  # how many the track was given
        self._answered = 0  # how many it answered
        self._node: Optional[tuple[float, float]] = None  # a place, and how many chips are before it
        self._chip = 0  # the number of the next one
        self.begin = self.end = 0.0  # the places of the first chip, and of the one after the last

    def push(self, signal: Complexes) -> Clocked:
        self._signal = numpy.concatenate([self._signal, signal])
        ahead = self._segments * self._length - self._first
        count = (self._signal.size - ahead) // self._length
        power = powers(self._signal[ahead : ahead + count * self._length]).reshape(count, self._length)
        turns = (self._segments + numpy.arange(count)) * self._turns % 1
        lines = power @ self._line * numpy.exp(-2j * math.pi * turns) / numpy.maximum(power.sum(axis=1), TINY)
        self._segments += count
        found = self._track.push(lines)
        places = self._places(found)
        return Clocked(self._taken(places), found.turn / (2 * math.pi * self._turns), found.coherence)

    def _places(self, found: Phases) -> Reals:
        """The places of the chips up to the middle of the last segment that was answered."""
        if not found.phase.size:
            return numpy.zeros(0)
        middles = (self._answered + numpy.arange(found.phase.size) + 0.5) * self._length
        chips = middles / self._spacing + found.phase / (2 * math.pi)
        self._answered += found.phase.size
        if self._node is None:
            # The first chip that has a sample before it: the segment's clock is that of its middle.
            self._node = (1.0, chips[0] - (middles[0] - 1) / self._spacing)
            self._chip = math.ceil(self._node[1])
        places = numpy.concatenate([[self._node[0]], middles])
        counted = numpy.concatenate([[self._node[1]], chips])
        self._node = (float(places[-1]), float(counted[-1]))
        numbers = numpy.arange(self._chip, math.floor(counted[-1]) + 1)
        self._chip += numbers.size
        result: Reals = numpy.interp(numbers, counted, places)
        if result.size:
            self.begin, self.end = self.begin or float(result[0]), float(result[-1]) + self._spacing
        return result

    def _taken(self, places: Reals) -> Complexes:
        chips = interpolated(self._signal, places - self._first)
        if self._node:
            kept = max(0, int(self._node[0]) - 4 - self._first)
            kept = min(kept, self._segments * self._length - self._first)
            self._signal = self._signal[kept:]
            self._first += kept
        return chips

    def finish(self) -> Clocked:
        """The chips up to the last sample, by silence after it."""
        end = self._first + self._signal.size
        found = self.push(numpy.zeros((self.WIDE + 2) * self._length, complex))
        assert self._node is not None
        after = math.ceil((self._node[0] - end) / self._spacing)
        due = max(0, found.chips.size - after)
        self.end -= after * self._spacing
        return found._replace(chips=found.chips[:due])


def interpolated(samples: Complexes, places: Reals) -> Complexes:
    """The values between samples, by the cubic through the two on each side."""
    k = places.astype(int)
    x = places - k
    a, b, c, d = (samples[k + beside] for beside in (-1, 0, 1, 2))
    second, third = (a + c) / 2 - b, (d - a) / 6 + (b - c) / 2
    result: Complexes = b + x * ((c - a / 3 - b / 2 - d / 6) + x * (second + x * third))
    return result


class Pairing:
    """Makes a symbol of each two chips. Of the two ways to pair them the stronger one is right."""

    SYMBOLS_PER_SEGMENT = 16
    REACH = 12  # segments of 13 ms
    MARGIN = 0.06  # by which the other way has to be stronger, as part of the power of both

    def __init__(self) -> None:
        self._rest: Complexes = numpy.zeros(0, complex)
        self._waiting: Complexes = numpy.zeros((0, self.SYMBOLS_PER_SEGMENT, 2), complex)
        self._balance: Reals = numpy.zeros(self.REACH)
        self._weights = bell(self.REACH) / bell(self.REACH).sum()
        self.first_way: Optional[int] = None
        self.way = 0
        self._due = 0  # how many chips have been read whose symbols were not given

    def push(self, chips: Complexes) -> Complexes:
        self._due += chips.size
        chips = numpy.concatenate([self._rest, chips])
        length = 2 * self.SYMBOLS_PER_SEGMENT
        count = max(0, chips.size - 1) // length
        self._rest = chips[count * length :]
        both = chips[: count * length] - chips[1 : count * length + 1]
        both = both.reshape(count, self.SYMBOLS_PER_SEGMENT, 2)
        strengths = powers(both).sum(axis=1)
        balance = (strengths[:, 1] - strengths[:, 0]) / numpy.maximum(strengths.sum(axis=1), TINY)
        self._waiting = numpy.concatenate([self._waiting, both])
        self._balance = numpy.concatenate([self._balance, balance])
        ready = max(0, self._balance.size - 2 * self.REACH)
        self._due -= ready * length
        return self._chosen(ready) if ready else numpy.zeros(0, complex)

    def _chosen(self, ready: int) -> Complexes:
        balance = numpy.convolve(self._balance, self._weights, "valid")
        is_sure = numpy.abs(balance) > self.MARGIN
        sure = numpy.maximum.accumulate(numpy.where(is_sure, numpy.arange(ready), -1))
        ways = numpy.where(sure < 0, self.way, balance[sure] > 0)
        self.way = int(ways[-1])
        self.first_way = int(ways[0]) if self.first_way is None else self.first_way
        symbols: Complexes = self._waiting[numpy.arange(ready), :, ways].ravel()
        self._waiting, self._balance = self._waiting[ready:], self._balance[ready:]
        return symbols

    def finish(self) -> Complexes:
        """The symbols of the last chips, by silence after them."""
        due = self._due // 2
        return self.push(numpy.zeros(2 * self.SYMBOLS_PER_SEGMENT * (self.REACH + 2), complex))[:due]

    @property
    def ahead(self) -> int:
        """How many chips after the last one the next symbol begins."""
        return self.way - self._due % 2


class Carried(NamedTuple):
    """Symbols whose phase was removed, and of each segment of them: the carrier's offset in Hz, and the coherence."""

    symbols: Complexes
    offset: Reals
    coherence: Reals


class Carrier:
    """Turns symbols onto the real axis, of either sign. Their squares have no sign, and turn by twice their phase."""

    SYMBOLS_PER_SEGMENT = 8
    REACH, WIDE = 20, 60  # segments of 7 ms
    RANGE_HZ = 30.0  # on both sides
    COHERENT = 0.3  # 1 without noise, and some 0.1 of noise alone

    def __init__(self) -> None:
        limit = 4 * math.pi * self.RANGE_HZ * self.SYMBOLS_PER_SEGMENT / BIT_RATE
        self._track = PhaseTrack(self.REACH, self.WIDE, limit, self.COHERENT)
        self._waiting: Complexes = numpy.zeros(0, complex)
        self._read = 0  # how many of these the track was given

    def push(self, symbols: Complexes) -> Carried:
        self._waiting = numpy.concatenate([self._waiting, symbols])
        length = self.SYMBOLS_PER_SEGMENT
        end = self._waiting.size // length * length
        segments = self._waiting[self._read : end].reshape(-1, length)
        squares = (segments * segments).sum(axis=1)
        found = self._track.push(squares / numpy.maximum(powers(segments).sum(axis=1), TINY))
        ready = found.phase.size * length
        self._read = end - ready
        beside = (numpy.arange(length) + 0.5) / length - 0.5
        phases = (found.phase[:, None] + found.turn[:, None] * beside).ravel()
        turned = self._waiting[:ready] * numpy.exp(-0.5j * phases)
        self._waiting = self._waiting[ready:]
        return Carried(turned, found.turn / (4 * math.pi) * BIT_RATE / length, found.coherence)

    def finish(self) -> Carried:
        due = self._waiting.size
        found = self.push(numpy.zeros(self.SYMBOLS_PER_SEGMENT * (self.WIDE + 2), complex))
        return found._replace(symbols=found.symbols[:due])


class Symbols(NamedTuple):
    """Symbols on the real axis, and of each segment of 8: the carrier's offset in Hz and coherence, by which part of
    its rate the clock is too fast, and its coherence."""

    symbols: Complexes
    offset: Reals
    coherence: Reals
    fast: Reals
    clocked: Reals

    @property
    def locked(self) -> NDArray[numpy.bool_]:
        """By the coherence of carrier and clock."""
        return (self.coherence >= Carrier.COHERENT) & (self.clocked >= ChipClock.COHERENT)

    @property
    def segments(self) -> Complexes:
        length = Carrier.SYMBOLS_PER_SEGMENT
        return self.symbols[: self.offset.size * length].reshape(-1, length)


class SymbolChain:
    """The symbols of a signal whose carrier and clock do not jump."""

    def __init__(self, rate: float):
        self._clock, self._pairing, self._carrier = ChipClock(rate), Pairing(), Carrier()
        self._spacing = rate / CHIP_RATE
        self._segments: Reals = numpy.zeros((2, 0))  # of the clock, for the carrier's segments to come

    def push(self, signal: Complexes) -> Symbols:
        return self._of_chips(self._clock.push(signal))

    def finish(self) -> Symbols:
        parts = [self._of_chips(self._clock.finish())]
        for found in (self._carrier.push(self._pairing.finish()), self._carrier.finish()):
            parts.append(self._of_symbols(found))
        return Symbols(*(numpy.concatenate(column, axis=-1) for column in zip(*parts)))

    def _of_chips(self, found: Clocked) -> Symbols:
        # A segment of the clock has as many chips as some of the carrier's have symbols.
        times = ChipClock.CHIPS_PER_SEGMENT // 2 // Carrier.SYMBOLS_PER_SEGMENT
        new = numpy.repeat(numpy.stack([found.fast, found.coherence]), times, axis=1)
        self._segments = numpy.concatenate([self._segments, new], axis=1)
        return self._of_symbols(self._carrier.push(self._pairing.push(found.chips)))

    def _of_symbols(self, found: Carried) -> Symbols:
        """With the segments that are whole."""
        count = min(found.symbols.size // Carrier.SYMBOLS_PER_SEGMENT, self._segments.shape[1])
        fast, clocked = self._segments[:, :count]
        self._segments = self._segments[:, count:]
        return Symbols(found.symbols, found.offset[:count], found.coherence[:count], fast, clocked)

    @property
    def begin(self) -> float:
        """The place of the first symbol's first chip."""
        return self._clock.begin + (self._pairing.first_way or 0) * self._spacing

    @property
    def end(self) -> float:
        """Where the symbol after the last one would begin."""
        return self._clock.end + self._spacing * self._pairing.ahead


class DifferentialDecoder:
    """A bit is 1 if a symbol has another sign than the one before it, so that polarity does not matter."""

    def __init__(self) -> None:
        self.last: NDArray[numpy.bool_] = numpy.zeros(0, bool)  # whether the last symbol was above 0

    def push(self, reals: Signal) -> Bits:
        signs = numpy.concatenate([self.last, reals > 0])
        self.last = signs[-1:]
        bits: Bits = (signs[1:] != signs[:-1]).astype(numpy.uint8)
        return bits
