"""Which form the bits or samples of a file are in: the command `form`."""

import argparse
import io
import os
import re
import shlex
from contextlib import suppress
from typing import Iterator, List, Tuple

import numpy

from ..rows.decoders import decode, decoder_of
from ..rows.heads import is_listing
from ..rows.items import Fault
from .pack import NAMES, SYMBOLS, Conversion, bits_of, packed_of
from .rates import likely_rate, locked
from .receiver import RATES
from .samples import Layout, Signal, StoredSamples, beginning_of, open_samples, wav_layout
from .symbols import Bits

PARTS, PART = 25, 10000  # bytes of the file that are tried
LEAST = 2  # complete groups that show a station
SIGNAL_BYTES = 1 << 24
SIGNAL_RATE = 100000  # a WAV file of this rate or more holds a signal

# What each change of the bits is called, and its option of `pack`.
CHANGES = {
    "lsb_first": (", lowest bit first", " --lsb-first"),
    "inverted": (", inverted", " --invert"),
    "differential": (", before differential decoding", " --differential"),
}
TRIED = ((), ("lsb_first",), ("inverted",), ("differential",), ("lsb_first", "differential"))
# The options of `demod` for raw samples.
RAW_SIGNALS = ("u8 --iq", "s16", "f32", "s16 --iq", "f32 --iq", "u8")


# A form: how many complete groups it gives, its name, and the command that makes packed bits of the file.
Found = Tuple[int, str, str]


def complete(parts: Iterator[Bits]) -> int:
    data = b"".join(packed for packed, _ in packed_of(parts))
    return decode(data)[1].complete


def parts_of(path: str, start: int) -> bytes:
    """Parts from all of the file, after its header; they begin at multiples of 16 bytes, so that no number is cut."""
    with open(path, "rb") as file:
        head = file.read(start)
        apart = (os.path.getsize(path) - start - PART) // (PARTS - 1) // 16 * 16
        if apart < PART:
            return head + file.read(PARTS * PART)
        taken = []
        for number in range(PARTS):
            file.seek(start + number * apart)
            taken.append(file.read(PART))
    return head + b"".join(taken)


def as_bits(path: str, data: bytes, forms: Tuple[str, ...]) -> List[Found]:
    found = []
    for form in forms:
        for changes in TRIED:
            if "lsb_first" in changes and form not in ("packed", "hex"):
                continue
            if form in SYMBOLS and changes or form in SYMBOLS.values() and "differential" in changes:
                continue
            try:
                groups = complete(bits_of(io.BytesIO(data), form, Conversion(**dict.fromkeys(changes, True))))
            except Fault:
                break
            if groups:
                name, options = ("".join(CHANGES[change][part] for change in changes) for part in (0, 1))
                command = f"rds-monitor pack --from {form}{options}" if form != "packed" or options else "cat"
                found.append((groups, NAMES[form] + name, f"{command} {shlex.quote(path)}"))
    return found


GROUP_LINE = re.compile(r"(?:[ \t]*[0-9A-Fa-f]){16}[ \t]*")


def as_lines(path: str, data: bytes) -> List[Found]:
    """Lines of a group's four words; a time after an @ is passed over, and a line that lacks a block is left out."""
    texts = [line.split("@")[0].rstrip("\r") for line in data.decode("latin-1").split("\n")]
    lines = [text for text in texts if GROUP_LINE.fullmatch(text)]
    if 2 * len(lines) < len(texts):
        return []
    keep = "tr -d '\\r' | grep -E '^([[:blank:]]*[[:xdigit:]]){16}[[:blank:]]*$' | rds encode"
    command = f"sed 's/@.*//' {shlex.quote(path)} | {keep}"
    return [(len(lines), "lines of hexadecimal words", command)]


def signal_of(path: str, raw: str, is_iq: bool) -> Signal:
    """Some seconds from inside a file of raw samples."""
    with open(path, "rb") as file:
        file.seek(max(0, os.path.getsize(path) - SIGNAL_BYTES) // 32 * 16)
        data = file.read(SIGNAL_BYTES)
    layout = Layout(1, 2 if is_iq else 1, raw)
    whole = data[: len(data) // layout.frame * layout.frame]
    source = StoredSamples(io.BytesIO(whole), layout, (0, 1) if is_iq else (0,))
    return numpy.concatenate([numpy.zeros(0), *source.blocks()])


def found_signal(bits: Bits, samples: Signal, name: str, options: str, path: str) -> Found:
    kind = "IQ" if numpy.iscomplexobj(samples) else "MPX"
    return complete(iter([bits])), f"{kind}, {name}", f"rds-monitor demod{options} {shlex.quote(path)}"


def as_raw_signal(path: str) -> List[Found]:
    """Raw samples of MPX or IQ, by the rate at which there is RDS."""
    for options in RAW_SIGNALS:
        raw = options.split()[0]
        with suppress(Fault):
            samples = signal_of(path, raw, "--iq" in options)
            rate = likely_rate(samples)
            if rate:
                name, bits = f"{raw} samples, {rate} a second", locked(samples, rate)[1]
                return [found_signal(bits, samples, name, f" --raw {options} --rate {rate}", path)]
    return []


def readable(blocks: Iterator[Signal]) -> Iterator[Signal]:
    """The blocks of a file that may be cut off."""
    with suppress(Fault):
        yield from blocks


def as_file_signal(path: str) -> List[Found]:
    """MPX or IQ in a WAV or FLAC file: one of its channels, or two as I and Q."""
    with open(path, "rb") as file:
        if file.read(4) == b"fLaC":
            file.seek(20)
            count = (file.read(1)[0] >> 1 & 7) + 1  # STREAMINFO has the channels less one in three bits
        else:
            file.seek(0)
            count = wav_layout(file).channels
    found = []
    for channel in [*range(1, count + 1), *([None] if count == 2 else [])]:
        source = open_samples(path, raw=None, rate=None, channel=channel, is_iq=channel is None)
        samples = numpy.concatenate(
            [numpy.zeros(0), *beginning_of(readable(source.blocks()), 10 * source.rate)]
        )
        if source.rate not in RATES:
            raise Fault(f"a sample rate of {source.rate} is not {RATES[0]} to {RATES[-1]}")
        share, bits = locked(samples, source.rate)
        if share > 0.3:
            which = " --iq" if channel is None else f" --channel {channel}" if count > 1 else ""
            found.append(found_signal(bits, samples, f"{source.rate} samples a second", which, path))
    return found


DESCRIPTION = """\
Identifies the format of a file, and prints the command that converts it to packed bits, as rds reads them.

    complete groups, form, command
      1922  unpacked bits, bytes 0 and 1  rds-monitor pack --from bytes unknown.dat

Each format is tried on parts of the file. The right one gives eleven complete groups per second, any other hardly
one. MPX and IQ in raw samples are tried at the usual rates. The exit status is 1 if no format gives two groups."""


def options_form(parser: argparse.ArgumentParser) -> None:
    parser.description, parser.epilog = DESCRIPTION, "example:\n  rds-monitor form unknown.dat"
    parser.add_argument("input", metavar="FILE")


def forms_of(path: str, head: bytes) -> List[Found]:
    if head[:4] == b"fLaC":
        return as_file_signal(path)
    if head[:4] in (b"RIFF", b"RF64"):
        with open(path, "rb") as file:
            rate, start = wav_layout(file).rate, file.tell()
        return as_file_signal(path) if rate >= SIGNAL_RATE else as_bits(path, parts_of(path, start), ("wav",))
    data = parts_of(path, 0)
    found = as_bits(path, data, tuple(name for name in NAMES if name != "wav")) + as_lines(path, data)
    return found if any(groups >= LEAST for groups, _, _ in found) else found + as_raw_signal(path)


def claims_listing(head: bytes) -> bool:
    try:
        return is_listing(head)
    except Fault as error:
        # UTF-16, as PowerShell writes it, is refused with its cure; other text may be bits.
        if "UTF-16" in str(error):
            raise
        return False


def run_form(arguments: argparse.Namespace) -> int:
    path = arguments.input
    if not os.path.isfile(path):
        raise Fault(f"{path!r} is no file")
    with open(path, "rb") as file:
        head = file.read(4096)
    if not head:
        raise Fault(f"{path!r} is empty")
    if claims_listing(head):
        print(f"a listing of rds list or rds follow, not a recording: rds-monitor info {shlex.quote(path)}")
        return 0
    decoder_of()  # without a decoder no form gives a group
    found = sorted(forms_of(path, head), reverse=True)
    if not found or found[0][0] < LEAST:
        why = "nothing was received, or it is in another format"
        raise Fault(f"no known format gives two complete groups of {path!r}: {why}")
    width = max(len(name) for _, name, _ in found)
    rows = (f"{groups:6}  {name:{width}}  {command}" for groups, name, command in found)
    print("complete groups, form, command", *rows, sep="\n")
    return 0
