"""The FM stations with RDS of a capture of IQ: the command `stations`."""

import argparse
import json
import sys
from typing import Any, Dict, List, NamedTuple, Optional, Sequence, Tuple

import numpy

from ..content.charset import printable
from ..content.decoder import Decoder
from ..content.jsonl import set_utf8
from ..rows.clock import number_of
from ..rows.decoders import decode, decoder_of
from ..rows.items import Fault, Misuse
from ..signal.demod import OPTIONS, hertz, open_signal
from ..signal.found import Spectrum
from ..signal.samples import SampleSource
from ..signal.several import TunedStation, TunedStations, Tuning
from ..signal.symbols import Bits
from .picture import picture_of

SECONDS = 10.0  # after which most stations have sent all of their PS

DESCRIPTION = """\
Lists the FM stations with RDS in a capture of IQ: frequency, level (dB of a full-scale carrier), signal-to-noise ratio of
RDS (in 4.8 kHz), PI and PS. With --html it draws the spectrum with the stations marked, as a page that needs nothing else.

The capture is in a WAV file, or raw. The frequency of its centre is that of --centre, of the WAV header (chunk auxi), of
the .sigmf-meta, or of the file's name, as SDR#, HDSDR, SDR Console and gqrx write it. If none tells it, frequencies are
offsets from the centre. The exit status is 1 if no station was found."""
EXAMPLES = """\
examples:
  rds-monitor stations SDRSharp_20261129_120000Z_98000000Hz_IQ.wav
  rtl_sdr -f 98M -s 2.4M -n 24M - | rds-monitor stations --raw u8 --rate 2400000 --centre 98M --html > band.html"""


class StationSeen(NamedTuple):
    """A station: in Hz, in dB, and what it says of itself, if it came."""

    frequency: float
    level_dbfs: Optional[float]
    snr_db: Optional[float]
    pi: Optional[str]
    ps: Optional[str]


class KeptBits:
    """Keeps the bits of a station."""

    def __init__(self) -> None:
        self._parts: List[Bits] = []
        self.written = 0

    def push(self, bits: Bits, last: bool = False) -> None:
        self._parts.append(bits)
        self.written += bits.size

    def packed(self) -> bytes:
        return numpy.packbits(numpy.concatenate(self._parts)).tobytes()


def options_stations(parser: argparse.ArgumentParser) -> None:
    parser.description, parser.epilog = DESCRIPTION, EXAMPLES
    text = "the capture (default: standard input)"
    parser.add_argument("input", nargs="?", default="-", metavar="CAPTURE", help=text)
    for name in "--raw --rate".split():
        how, text = OPTIONS[name]
        parser.add_argument(name, help=text, **how)
    parser.add_argument("--centre", type=hertz, metavar="HZ", help="the frequency of the centre, such as 98M")
    text = "look at this many seconds (%(default)g)"
    parser.add_argument("--seconds", type=number_of, default=SECONDS, metavar="N", help=text)
    form = parser.add_mutually_exclusive_group()
    form.add_argument("--json", action="store_true", help="a line of JSON per station")
    form.add_argument("--html", action="store_true", help="a page with a picture of the spectrum")


def run_stations(arguments: argparse.Namespace) -> int:
    if arguments.raw and arguments.rate is None:
        raise Misuse("--raw needs --rate")
    decoder_of()
    source = open_signal(arguments, None, True)
    tuning = Tuning(source.centre if arguments.centre is None else arguments.centre, source.rate)
    spectrum, stations, fault = stations_in(source, tuning, arguments.seconds)
    set_utf8()
    if arguments.html:
        rows = [texts_of(station, tuning) for station in stations]
        marks = [station.frequency - tuning.centre for station in stations]
        sys.stdout.write(picture_of(spectrum, tuning, marks, HEAD, rows))
    elif arguments.json:
        for station in stations:
            print(json.dumps(station._asdict(), ensure_ascii=False))
    elif stations:
        table = [HEAD, *(texts_of(station, tuning) for station in stations)]
        widths = [max(map(len, column)) for column in zip(*table)]
        for row in table:
            numbers = (f"{text:>{width}}" for text, width in zip(row[:-1], widths))
            print("  ".join([*numbers, row[-1]]))
    if fault:
        raise fault
    if not stations:
        raise Fault("no station with RDS was found")
    return 0


def stations_in(
    source: SampleSource, tuning: Tuning, seconds: float
) -> Tuple[Spectrum, List[StationSeen], Optional[Fault]]:
    """The spectrum, the stations, and why the capture was not read on."""
    kept: Dict[str, KeptBits] = {}

    def writer_of(station: TunedStation) -> KeptBits:
        return kept.setdefault(station.name, KeptBits())

    tuned, fault = TunedStations(source, tuning, writer_of), None
    try:
        tuned.run(seconds)
    except Fault as error:
        fault = error
    if tuned.spectrum is None:
        raise fault or Fault("there is no sample in the input")
    return tuned.spectrum, [seen(one, kept[one.name]) for one in tuned.stations if one.name in kept], fault


def seen(station: TunedStation, bits: KeptBits) -> StationSeen:
    decoder = Decoder()
    decoder.feed(decode(bits.packed())[0])
    held, report = decoder.held(), station.receiver.quality.report()
    texts = [held[item].text if item in held else None for item in ("pi", "ps")]
    return StationSeen(station.frequency, report["level_dbfs"], report["snr_db"], *texts)


HEAD = ("frequency", "level dBFS", "SNR dB", "PI", "PS")


def texts_of(station: StationSeen, tuning: Tuning) -> Sequence[str]:
    def text(value: Any) -> str:
        return "-" if value is None else printable(str(value))

    return (tuning.text(station.frequency - tuning.centre), *map(text, station[1:]))
