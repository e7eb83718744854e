"""Several stations of one capture of IQ, each to bits of its own: `demod --stations`."""

import argparse
import json
import math
import os
import sys
from itertools import chain
from typing import Any, Callable, Dict, List, Optional, Protocol, Sequence

import numpy

from ..rows.items import Fault
from .centre import frequency_of, frequency_text
from .found import HALF_CHANNEL_HZ, SETTLED, Spectrum, candidates, is_inside, spectrum_of, with_rds
from .outputs import QualityLine, report_of
from .pack import BitWriter, Packer
from .receiver import Capture, Receiver
from .samples import SampleSource, Signal, beginning_of, uninterrupted
from .symbols import Bits

SPECTRUM_SECONDS = 0.5  # of the beginning, in which stations are looked for


class Tuning:
    """Frequencies and offsets from the centre of a capture, in Hz. If the centre is not known, offsets are its frequencies."""

    def __init__(self, centre: Optional[float], rate: int):
        self.is_known, self.centre, self._rate = centre is not None, centre or 0.0, rate

    def offsets_of(self, text: str) -> List[float]:
        """Of frequencies with commas between them."""
        if not self.is_known:
            cure = "name it by --centre, or 0 if --at has offsets from it"
            raise Fault(f"the centre of the capture is not known: {cure}")
        found = [frequency_of(word) - self.centre for word in text.split(",")]
        for offset in found:
            if found.count(offset) > 1:
                raise Fault(f"{self.text(offset)} is named twice")
            if not is_inside(offset, self._rate):
                low, high = (self.centre + way * (self._rate / 2 - HALF_CHANNEL_HZ) for way in (-1, 1))
                band = f"{frequency_text(low)} to {frequency_text(high)}"
                raise Fault(f"{self.text(offset)} is not in the band: it has stations from {band}")
        return found

    def hertz(self, offset: float) -> float:
        hertz = round(self.centre + offset, 3)
        return int(hertz) if hertz.is_integer() else hertz

    def text(self, offset: float) -> str:
        return frequency_text(self.centre + offset, self.is_known)


class LineWriter:
    """Writes a line of JSON whenever there are whole bytes of bits: the frequency, the seconds of the signal that were read, the bits
    or symbols as hexadecimal digits, and how strong the signal was. The last bits that fill no byte are left out.
    """

    def __init__(self, frequency: float, receiver: Receiver, seconds: Callable[[], float]):
        self._frequency, self._receiver, self._seconds = frequency, receiver, seconds
        self._packer = Packer(not receiver.is_soft)
        self.written = 0

    def push(self, bits: Bits, last: bool = False) -> None:
        self.written += bits.size
        data = self._packer.push(bits)
        if data:
            line: Dict[str, Any] = {"frequency": self._frequency, "seconds": round(self._seconds(), 3)}
            line["symbols" if self._receiver.is_soft else "bits"] = data.hex()
            line.update(self._receiver.quality.recent()._asdict())
            print(json.dumps(line, separators=(",", ":")), flush=True)


class StationWriter(Protocol):
    """Takes the bits of a station; `written` is how many."""

    written: int

    def push(self, bits: Bits, last: bool = False) -> None:
        ...


class TunedStation:
    """A station of the capture. Until it is known to have RDS its bits wait for a writer."""

    def __init__(self, name: str, frequency: float, receiver: Receiver):
        self.name, self.frequency, self.receiver = name, frequency, receiver
        self._waiting: List[Bits] = []
        self._writer: Optional[StationWriter] = None

    def write_to(self, writer: StationWriter) -> None:
        self._writer = writer
        writer.push(numpy.concatenate([numpy.zeros(0, "u1"), *self._waiting]))
        self._waiting = []

    def push(self, bits: Bits, last: bool = False) -> None:
        if self._writer is None:
            self._waiting.append(bits)
        else:
            self._writer.push(bits, last)

    def report(self) -> Dict[str, Any]:
        written = self._writer.written if self._writer else 0
        return {"frequency": self.frequency, **report_of(self.receiver, written)}


class TunedStations:
    """All stations of a capture: those named by their offsets, or those found by their RDS. `writer_of` gives each its writer."""

    def __init__(
        self,
        source: SampleSource,
        tuning: Tuning,
        writer_of: Callable[[TunedStation], StationWriter],
        named: Sequence[float] = (),
        equalised: Sequence[float] = (),
        soft: bool = False,
    ):
        self._source, self._tuning, self._writer_of, self._soft = source, tuning, writer_of, soft
        self._named, self._equalised = named, equalised
        self.seconds = 0.0  # of the signal that were read
        self.spectrum: Optional[Spectrum] = None  # that they were looked for in
        self.stations: List[TunedStation] = []
        self._waits = not named

    def run(
        self, most: float = math.inf, each: Callable[[TunedStation], None] = lambda station: None
    ) -> None:
        """Up to `most` seconds. After a fault, or when interrupted, the bits up to there are written too."""
        blocks = self._source.blocks()
        first = [] if self._named else beginning_of(blocks, SPECTRUM_SECONDS * self._source.rate)
        self._begin(first)
        try:
            for samples in chain(first, blocks):
                self.seconds += samples.size / self._source.rate
                with uninterrupted():
                    self._push(self._capture.push(samples))
                for station in () if self._waits else self.stations:
                    each(station)
                if self._waits and self._capture.receivers[0].quality.received.bits >= SETTLED:
                    self._settle()
                if self.seconds >= most:
                    break
        finally:
            self._push(self._capture.finish())
            if self._waits:
                self._settle()
            self._push([numpy.zeros(0, "u1")] * len(self.stations), last=True)

    def _begin(self, first: Sequence[Signal]) -> None:
        source, tuning, offsets = self._source, self._tuning, list(self._named)
        if not offsets:
            samples = numpy.concatenate([numpy.zeros(0, "c8"), *first])
            self.spectrum = spectrum_of(samples, source.rate, source.full_scale)
            offsets = candidates(self.spectrum, tuning.centre)
        if not offsets:
            raise Fault("no station was found")
        for offset in self._equalised:
            if offset not in offsets:
                raise Fault(f"{tuning.text(offset)} is equalised, but is no station")
        self._capture = Capture(source.rate, True, source.full_scale, offsets, self._equalised, self._soft)
        self._offsets = offsets
        for offset, receiver in zip(offsets, self._capture.receivers):
            self.stations.append(TunedStation(tuning.text(offset), tuning.hertz(offset), receiver))
        if not self._waits:
            self._open()

    def _push(self, found: Sequence[Bits], last: bool = False) -> None:
        for station, bits in zip(self.stations, found):
            station.push(bits, last)

    def _settle(self) -> None:
        """Leaves out those without RDS."""
        self._waits = False
        kept = with_rds(self._capture, self._offsets)
        self.stations = [self.stations[number] for number in kept]
        if not kept:
            raise Fault("no station with RDS was found")
        self._capture.keep(kept)
        self._open()

    def _open(self) -> None:
        """From now on their bits are written."""
        for station in self.stations:
            station.write_to(self._writer_of(station))


def run_stations(source: SampleSource, arguments: argparse.Namespace) -> int:
    folder, tellers, packs = arguments.output, {}, not (arguments.unpacked or arguments.soft)
    tuning = Tuning(source.centre if arguments.centre is None else arguments.centre, source.rate)
    if folder != "-":
        os.makedirs(folder, exist_ok=True)

    def writer_of(station: TunedStation) -> StationWriter:
        tellers[station.name] = QualityLine(arguments, sys.stderr, station.name)
        if folder == "-":
            return LineWriter(station.frequency, station.receiver, lambda: stations.seconds)
        path = os.path.join(folder, f"{station.name}.{'soft' if arguments.soft else 'bin'}")
        return BitWriter(path, packs)

    def tell(station: TunedStation) -> None:
        tellers[station.name].tell(station.receiver.quality.seconds, station.report)

    asked = arguments.at, arguments.equalise
    named, equalised = (tuning.offsets_of(text) if text else [] for text in asked)
    stations = TunedStations(source, tuning, writer_of, named, equalised, arguments.soft)
    try:
        stations.run(each=tell)
    finally:
        for station in stations.stations:
            if station.name in tellers:
                tellers[station.name].end(station.report())
    if not any(station.receiver.quality.locked for station in stations.stations):
        raise Fault("no RDS was found at any frequency")
    return 0
