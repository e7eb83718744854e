"""The receiver of RDS: from MPX, or from IQ with one station or several, to bits, and how well they were received."""

import math
from dataclasses import dataclass, field
from fractions import Fraction
from typing import Any, Collection, Dict, List, NamedTuple, Optional, Sequence, Tuple

import numpy

from ..rows.blocks import BlockCounter
from ..rows.items import GROUP_BITS
from .filters import Bands, Passband, at_least
from .fm import DEVIATION_HZ, FmReceiver, station_channels
from .jumps import Jumps
from .samples import Complexes, Reals, Signal
from .soft import SoftSymbols
from .symbols import BIT_RATE, CHIP_RATE, Bits, Carrier, DifferentialDecoder, Symbols, SymbolChain

CARRIER_HZ = 57000
PILOT_HZ = 19000
RATES = range(128000, 20000001)
SAMPLES_PER_CHIP = 6.0  # at least, of the signal that the clock is found in
CHANNEL_HZ = 4800.0  # of RDS, for the ratio of signal to noise
HELD = 2 * GROUP_BITS  # bits after a jump
EARLY = 0.25  # of a bit, by which the clock may be early after a jump


def matched_filter(frequencies: Reals) -> Reals:
    """Of a chip: the receiver filters as the standard shapes the spectrum (IEC 62106, modulation of the subcarrier)."""
    near = numpy.abs(frequencies) < CHIP_RATE
    return numpy.where(near, numpy.cos(math.pi * frequencies / (2 * CHIP_RATE)), 0)


class Strength(NamedTuple):
    """How strong a signal was: the power of the station's channel, of IQ, and the signal-to-noise ratio of RDS, if there was any."""

    level_dbfs: Optional[float]
    snr_db: Optional[float]


@dataclass
class Quality:
    """Sums over segments of 8 bits, of the locked ones."""

    full_scale: float  # of the samples
    fm: Optional[FmReceiver] = None  # of IQ
    segments: int = 0
    locked: int = 0
    first: Optional[int] = None
    sums: Reals = field(default_factory=lambda: numpy.zeros(4))
    level: Reals = field(default_factory=lambda: numpy.zeros(2))  # the power, and of how many segments
    received: BlockCounter = field(default_factory=BlockCounter)
    pilot: List[float] = field(default_factory=list)
    blocks: int = 0
    _told: Reals = field(default_factory=lambda: numpy.zeros(5))

    def add(self, found: Symbols, plain: Symbols) -> None:
        """The symbols as decided, and the signal as it came."""
        lock = found.locked
        if self.first is None and lock.any():
            self.first = self.segments + int(lock.argmax())
        self.segments += lock.size
        self.locked += int(lock.sum())
        reals, imaginaries = ((part**2).mean(axis=1) for part in (found.segments.real, found.segments.imag))
        values = numpy.stack([found.offset, found.fast, reals - imaginaries, imaginaries])
        self.sums += values[:, lock].sum(axis=1)
        # The square has the power of the signal, since that of noise is 0 on average.
        power = (plain.segments**2).real.mean(axis=1)[plain.locked]
        self.level += power.sum(), power.size

    def watch(self, spectrum: Signal, hz_per_bin: float, block: int) -> None:
        """The power of the pilot in one of eight blocks' spectra, above that of its surroundings."""
        self.blocks += 1
        if self.blocks % 8 != 1:
            return
        middle = round(PILOT_HZ / hz_per_bin)
        power = numpy.abs(spectrum[-1, middle - 40 : middle + 41]) ** 2
        near, far = power[34:47], numpy.concatenate([power[:30], power[51:]])
        pilot = max(0.0, float(near.sum() - near.size * numpy.median(far)))
        if pilot > 20 * near.size * float(numpy.median(far)):
            self.pilot = [*self.pilot[-63:], pilot * (2 / block) ** 2]

    @property
    def seconds(self) -> float:
        return self.segments * Carrier.SYMBOLS_PER_SEGMENT / BIT_RATE

    def report(self) -> Dict[str, Any]:
        """What is said of the signal; None for what is not known."""
        per_second = BIT_RATE / Carrier.SYMBOLS_PER_SEGMENT
        locked = round(self.locked / self.segments, 4) if self.segments else 0.0
        told: Dict[str, Any] = {"seconds": round(self.seconds, 1), "locked": locked}
        told["received"] = round(self.received.share, 4)
        told["first_lock_s"] = None if self.first is None else round(self.first / per_second, 1)
        offset, fast, signal, imaginary = (self.sums / max(1, self.locked)).tolist()
        noise = 2 * imaginary * CHANNEL_HZ / BIT_RATE
        told["snr_db"] = _decibels(signal / noise) if noise else None
        told["carrier_offset_hz"] = round(offset, 2) if self.locked else None
        told["clock_offset_ppm"] = round(1e6 * fast, 1) if self.locked else None
        # A symbol is two chips, each with the amplitude of a carrier of the same power.
        power = max(0.0, self.level[0] / max(1, self.level[1]))
        level = math.sqrt(power) / 2 / self._full_scale(CARRIER_HZ)
        pilot = math.sqrt(sum(self.pilot) / len(self.pilot)) if self.pilot else 0.0
        pilot /= self._full_scale(PILOT_HZ)
        told["rds_khz"] = round(level * DEVIATION_HZ / 1000, 2) if self.fm and level else None
        told["rds_dbfs"] = None if self.fm else _decibels(level * level)
        told["rds_to_pilot_db"] = _decibels((level / pilot) ** 2) if pilot else None
        told["level_dbfs"] = self._channel_dbfs(*self._level)
        return told

    @property
    def _level(self) -> Tuple[float, int]:
        """The sum of the power of the station's channel in IQ, and over how many samples."""
        return self.fm.level if self.fm else (0.0, 0)

    def _channel_dbfs(self, power: float, count: float) -> Optional[float]:
        return _decibels(power / count / self.full_scale**2) if count else None

    def _full_scale(self, frequency: float) -> float:
        """Of MPX at this frequency: a discriminator has 1, and a response."""
        return self.fm.response(frequency) if self.fm else self.full_scale

    def recent(self) -> Strength:
        """The signal since the last call."""
        now = numpy.array([*self.sums[2:], self.locked, *self._level])
        signal, noise, locked, *level = (now - self._told).tolist()
        self._told = now
        snr = _decibels(signal / (2 * noise * CHANNEL_HZ / BIT_RATE)) if locked and noise else None
        return Strength(self._channel_dbfs(*level), snr)


def _decibels(ratio: float) -> Optional[float]:
    return round(10 * math.log10(ratio), 1) if ratio > 0 else None


class Receiver:
    """From MPX, or the channel of one station around 0 Hz, to bits, decoded differentially; the bits wait for the signal
    of some 2 seconds after them. With `soft` it gives symbols, a byte each, in their place."""

    def __init__(self, rate: Fraction, is_iq: bool, full_scale: float, equalise: bool, soft: bool):
        self._fm = FmReceiver(rate, equalise) if is_iq else None
        # Decisions are made after the equaliser, levels are measured before it.
        rows = 2 if equalise else 1
        shape = (CARRIER_HZ, CHIP_RATE, matched_filter, SAMPLES_PER_CHIP * CHIP_RATE)
        band = Passband(rate, *shape, at_least(rate / 4), True)
        self._bands = Bands([band], rows)
        self.quality = Quality(full_scale, self._fm)
        self._bands.watch = lambda spectrum: self.quality.watch(spectrum, band.hz_per_bin, band.block)
        self._rate = float(band.rate_out)
        self._jumps = Jumps(self._rate, rows)
        self._chains = [SymbolChain(self._rate) for _ in range(rows)]
        # The place and length of the signal since the last jump, and where the next symbol before that would begin, until
        # one after it is known.
        self._begin = self._size = 0
        self._end: Optional[float] = None
        self._held: Complexes = numpy.zeros(0, complex)
        self._sign = 1  # of the symbols since the last jump, so that they go on with the sign of those before
        self._decoder = DifferentialDecoder()
        self.is_soft, self._soft = soft, SoftSymbols() if soft else None

    def push(self, samples: Signal) -> Bits:
        return self._of_mpx(self._fm.push(samples) if self._fm else samples[None])

    def finish(self) -> Bits:
        """The bits of the last samples, which waited for more."""
        parts = [self._of_mpx(self._fm.finish())] if self._fm else []
        parts.append(self._of_parts(self._jumps.push(self._bands.finish()[0])))
        parts.append(self._of_parts(self._jumps.finish()))
        parts.append(self._of_symbols([chain.finish() for chain in self._chains]))
        parts += [self._soft.finish()] if self._soft else []
        return numpy.concatenate(parts)

    def _of_mpx(self, mpx: Reals) -> Bits:
        (signal,) = self._bands.push(mpx)
        return self._of_parts(self._jumps.push(signal)) if signal.size else numpy.zeros(0, "u1")

    def _of_parts(self, parts: List[Complexes]) -> Bits:
        """Of signals with a jump between each two."""
        found = []
        for number, part in enumerate(parts):
            if number:
                found.append(self._of_symbols([chain.finish() for chain in self._chains]))
                self._end = self._begin + self._chains[0].end
                self._begin, self._size, self._sign = self._begin + self._size, 0, 1
                self._chains = [SymbolChain(self._rate) for _ in self._chains]
            self._size += part.shape[1]
            found.append(self._of_symbols([chain.push(row) for chain, row in zip(self._chains, part)], HELD))
        return numpy.concatenate(found)

    def _of_symbols(self, found: List[Symbols], least: int = 1) -> Bits:
        """After a jump the first symbols wait until there are `least`, which tell how many were lost."""
        self.quality.add(found[0], found[-1])
        self._held = numpy.append(self._held, self._sign * found[0].symbols)
        if self._end is not None:
            if self._held.size < least:
                return numpy.zeros(0, "u1")
            missing = self._missing(self._end)
            self._sign = self._sign_after(missing)
            self._held, self._end = numpy.append(numpy.zeros(missing), self._sign * self._held), None
        symbols, self._held = self._held, self._held[:0]
        bits = self._decoder.push(symbols.real)
        self.quality.received.push(bits)
        return self._soft.push(symbols) if self._soft else bits

    def _missing(self, end: float) -> int:
        """How many symbols were lost in a jump. If there are blocks on both sides, groups go on after that number;
        else the clock tells it. A receiver drops samples and adds none, so the clock is late if it is wrong.
        """
        before, after = self.quality.received, BlockCounter()
        after.push(DifferentialDecoder().push(self._held.real))
        if before.phase is not None and after.phase is not None:
            return (before.phase - before.bits - 1 - after.phase) % GROUP_BITS
        apart = (self._begin + self._chains[0].begin - end) / self._rate * BIT_RATE
        return max(0, math.ceil(apart - EARLY))

    def _sign_after(self, missing: int) -> int:
        """By which factor the symbols after a jump go on: the carrier's phase is known but for its sign. The bit there would be wrong
        by chance, and no flip of a single symbol is a wrong bit alone."""
        after = self._held.real
        parity = self.quality.received.parity_over(missing + 1, DifferentialDecoder().push(after))
        is_other = self._decoder.last.any() != (after[0] > 0)
        return 1 if parity is None or parity == is_other else -1


class Capture:
    """The receivers of stations in one signal: of one station in MPX, or of those at these offsets from the centre of
    IQ, in Hz. `equalised` are the offsets of those whose multipath is undone. With `soft` symbols are in place of bits.
    """

    def __init__(
        self,
        rate: int,
        is_iq: bool = False,
        full_scale: float = 1.0,
        offsets: Sequence[float] = (0.0,),
        equalised: Collection[float] = (),
        soft: bool = False,
    ):
        self._channels = station_channels(rate, offsets) if is_iq else None
        own = self._channels.bands[0].rate_out if self._channels else Fraction(rate)
        self.receivers = [Receiver(own, is_iq, full_scale, offset in equalised, soft) for offset in offsets]

    def push(self, samples: Signal) -> List[Bits]:
        """Of each station the bits."""
        return self._bits(self._channels.push(samples[None]) if self._channels else [samples[None]])

    def finish(self) -> List[Bits]:
        rest = self._channels.finish() if self._channels else []
        before = self._bits(rest) if rest else [numpy.zeros(0, "u1")] * len(self.receivers)
        parts = zip(before, self.receivers)
        return [numpy.concatenate([bits, receiver.finish()]) for bits, receiver in parts]

    def keep(self, numbers: Sequence[int]) -> None:
        """Goes on with these stations alone."""
        self.receivers = [self.receivers[number] for number in numbers]
        if self._channels:
            self._channels.bands = [self._channels.bands[number] for number in numbers]

    def _bits(self, signals: Sequence[Signal]) -> List[Bits]:
        if not signals[0].size:
            return [numpy.zeros(0, "u1")] * len(self.receivers)
        return [receiver.push(signal[0]) for receiver, signal in zip(self.receivers, signals)]
