"""Bits of RDS from MPX or IQ: the command `demod`."""

import argparse
import sys
from functools import partial
from typing import Any, Dict, List, Optional, Tuple

import numpy

from ..rows.items import Fault, Misuse
from .centre import frequency_of
from .outputs import QualityLine, report_of
from .pack import BitWriter
from .rates import likely_rate
from .receiver import RATES, Capture
from .samples import RAW_FORMS, SampleSource, Signal, open_samples, uninterrupted
from .several import run_stations

SECONDS_KEPT = 6  # of the signal, to find its rate if there is no RDS

DESCRIPTION = """\
Demodulates RDS. The output is packed bits, differentially decoded, MSB first, as rds reads them. With --soft it is
symbols for rds --soft: per symbol a signed byte, the log-likelihood ratio of its sign in 1/16 nat.

The signal is MPX, which an FM demodulator gives before de-emphasis, or IQ with --iq. It is in a WAV file (integers of
8 to 32 bits or floating point), in a FLAC file (needs python3-soundfile), or raw, at 128,000 samples per second or
more. Memory does not grow with its length.

With --stations, IQ of a wide band has several stations, those of --at or those found in the first seconds by their RDS.
Each gets a file in the folder of --output, named by its frequency. Without --output, standard output has lines of JSON,
each with some bits of a station as hex digits. A capture's centre is read from its WAV header (chunk auxi), its name, or
its .sigmf-meta; --centre names it.

At the end, standard error reports which share of the bits is in valid blocks, for how much of the time carrier and bit
clock were coherent, their offsets, the signal-to-noise ratio (in 4.8 kHz), and the level. The level of IQ is the
deviation (rds_khz) that an unmodulated 57 kHz carrier of the same power has. The exit status is 1 if there was no RDS."""
EXAMPLES = """\
examples:
  rds-monitor demod mpx.wav | rds list > listing.csv
  rds-monitor demod --soft mpx.wav | rds list --soft > listing.csv
  rtl_fm -M fm -l 0 -A std -p 0 -s 171k -F 9 -f 98.1M | rds-monitor demod --raw s16 --rate 171000 | rds follow
  rtl_sdr -f 98.1M -s 240k - | rds-monitor demod --iq --raw u8 --rate 240000 > recording.bin
  rds-monitor demod --stations --output bits SDRSharp_20261129_120000Z_98000000Hz_IQ.wav"""


def hertz(text: str) -> float:
    try:
        return frequency_of(text)
    except Fault as error:
        raise argparse.ArgumentTypeError(str(error)) from None


NUMBER, FLAG, LIST = {"type": int, "metavar": "N"}, {"action": "store_true"}, {"metavar": "LIST"}
FILE, RAW = {"default": "-", "metavar": "FILE"}, {"choices": RAW_FORMS}
OFFSET, CENTRE = {"type": float, "default": 0.0, "metavar": "HZ"}, {"type": hertz, "metavar": "HZ"}
OPTIONS: Dict[str, Tuple[Dict[str, Any], str]] = {
    "input": ({"nargs": "?", **FILE}, "the signal (default: - for standard input)"),
    "--raw": (RAW, "raw samples, low byte first: f32 floating point, s16 integers, u8 around 127.5"),
    "--rate": (NUMBER, "samples per second: of raw samples, or in place of the header's"),
    "--iq": (FLAG, "the samples are IQ, I first"),
    "--offset": (OFFSET, "the station's offset from the centre of IQ (0)"),
    "--no-equaliser": (FLAG, "IQ: do not equalise multipath"),
    "--stations": (FLAG, "IQ: demodulate several stations"),
    "--centre": (CENTRE, "--stations: the frequency of the centre of IQ, such as 98M"),
    "--at": (LIST, "--stations: their frequencies, such as 98.1M,100.3M (default: those found)"),
    "--equalise": (LIST, "--stations: equalise multipath of these (default: of none)"),
    "--channel": (NUMBER, "the channel with MPX, if the file has several; 1 is the first"),
    "--unpacked": (FLAG, "write one byte per bit, 0 or 1"),
    "--soft": (FLAG, "write symbols in place of bits, a signed byte each"),
    "--output": (FILE, "write to FILE, or into this folder with --stations (default: standard output)"),
    "--json": (FLAG, "report in JSON, one line"),
    "--every": ({"type": float, "metavar": "SECONDS"}, "also report every SECONDS of the signal"),
}


def options_demod(parser: argparse.ArgumentParser) -> None:
    parser.description, parser.epilog = DESCRIPTION, EXAMPLES
    for name, (how, text) in OPTIONS.items():
        parser.add_argument(name, help=text, **how)


def judge_options(arguments: argparse.Namespace) -> None:
    if arguments.raw and arguments.rate is None:
        raise Misuse("--raw needs --rate")
    if arguments.channel is not None and (arguments.raw or arguments.iq):
        raise Misuse("--channel is for MPX in a file with a header")
    if arguments.stations:
        if arguments.offset or arguments.no_equaliser:
            raise Misuse(
                "--offset and --no-equaliser are for one station, --at and --equalise for --stations"
            )
        if arguments.unpacked and arguments.output == "-":
            raise Misuse("--unpacked needs a folder: name it by --output")
        arguments.iq = True
    elif arguments.at or arguments.equalise or arguments.centre is not None:
        raise Misuse("--at, --equalise and --centre are for --stations")
    if not arguments.iq and (arguments.offset or arguments.no_equaliser):
        raise Misuse("--offset and --no-equaliser are for --iq")
    if arguments.soft and arguments.unpacked:
        raise Misuse("--soft and --unpacked contradict each other")
    if arguments.every is not None and not arguments.every > 0:
        raise Misuse("--every is a number of seconds above 0")


def open_signal(arguments: argparse.Namespace, channel: Optional[int], is_iq: bool) -> SampleSource:
    raw, rate = arguments.raw, arguments.rate
    source = open_samples(arguments.input, raw=raw, rate=rate, channel=channel, is_iq=is_iq)
    if source.rate not in RATES:
        raise Fault(f"a sample rate of {source.rate} is not {RATES[0]} to {RATES[-1]}")
    return source


def no_rds(source: SampleSource, beginning: Signal, offset: float) -> Fault:
    """What to say if there was none: perhaps the rate is another one."""
    rate = likely_rate(beginning, source.rate, offset)
    if rate:
        return Fault(f"no RDS at {source.rate} samples per second, but at {rate}: use --rate {rate}")
    text = "nothing was received, or the samples are in another format (rds-monitor form identifies it)"
    return Fault(f"no RDS was found: {text}")


def receive(source: SampleSource, capture: Capture, writer: BitWriter, teller: QualityLine) -> Signal:
    """Writes the bits of the signal, and gives its first seconds if there was no RDS in them. After a fault, or when
    interrupted, the bits up to there are written too."""
    beginning: List[Signal] = []
    (receiver,) = capture.receivers
    try:
        for samples in source.blocks():
            if receiver.quality.locked:
                beginning.clear()
            elif sum(map(len, beginning)) < SECONDS_KEPT * source.rate:
                beginning.append(samples)
            with uninterrupted():
                writer.push(capture.push(samples)[0])
            teller.tell(receiver.quality.seconds, partial(report_of, receiver, writer.written))
    finally:
        writer.push(capture.finish()[0], last=True)
        if writer.written:
            teller.end(report_of(receiver, writer.written))
    return numpy.concatenate(beginning or [numpy.zeros(0)])


def run_demod(arguments: argparse.Namespace) -> int:
    judge_options(arguments)
    source = open_signal(arguments, arguments.channel, arguments.iq)
    if arguments.stations:
        return run_stations(source, arguments)
    if not abs(arguments.offset) < source.rate / 2:
        raise Fault(
            f"--offset {arguments.offset:.10g} is not in the band, which has {source.rate / 2:.10g} Hz on both sides"
        )
    offsets = [arguments.offset]
    equalised = offsets if source.is_iq and not arguments.no_equaliser else []
    capture = Capture(source.rate, source.is_iq, source.full_scale, offsets, equalised, arguments.soft)
    writer = BitWriter(arguments.output, not (arguments.unpacked or arguments.soft))
    beginning = receive(source, capture, writer, QualityLine(arguments, sys.stderr))
    if not writer.written:
        raise Fault("the input is too short for a bit")
    if not capture.receivers[0].quality.locked:
        raise no_rds(source, beginning, arguments.offset)
    return 0
