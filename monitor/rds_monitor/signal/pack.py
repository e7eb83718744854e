"""Packed bits, most significant bit first, from bits and samples in other forms: the command `pack`."""

import argparse
import sys
from functools import partial
from typing import Any, BinaryIO, Callable, Dict, Iterator, NamedTuple, Optional, Tuple

import numpy

from ..rows.items import Fault, Misuse
from .samples import FORMS, numbers, wav_layout
from .symbols import Bits, DifferentialDecoder

Reader = Callable[[BinaryIO], Iterator[Bits]]
CHUNK = 1 << 20
WHOLE = 8  # a multiple of every sample's bytes

SYMBOLS = {"soft": "s8", "soft-f32": "f32"}  # and their samples
BLANKS = b" \t\r\n\v\f"


class Conversion(NamedTuple):
    """What else is to be done to the bits: the last one of each byte first, inverted, differentially decoded."""

    lsb_first: bool = False
    inverted: bool = False
    differential: bool = False


def _chunks(stream: BinaryIO) -> Iterator[bytes]:
    """All of the input as it comes, in whole samples."""
    read, data = getattr(stream, "read1", stream.read), b""
    for more in iter(lambda: read(CHUNK), b""):
        data += more
        whole = len(data) // WHOLE * WHOLE
        yield data[:whole]
        data = data[whole:]
    if data:
        yield data


def _checked(stream: BinaryIO, allowed: bytes, fault: str) -> Iterator[bytes]:
    """Chunks of bytes that are all allowed; the fault names the place and the value of the first other one."""
    read = 0
    for data in _chunks(stream):
        strange = data.translate(None, allowed)
        if strange:
            raise Fault(fault.format(read + data.index(strange[:1]) + 1, strange[0]))
        read += len(data)
        yield data


def _packed(stream: BinaryIO) -> Iterator[Bits]:
    return (numpy.unpackbits(numpy.frombuffer(data, "u1")) for data in _chunks(stream))


def _hex(stream: BinaryIO) -> Iterator[Bits]:
    rest, fault = b"", "byte {} is 0x{:02X}, neither a hexadecimal digit nor blank"
    for data in _checked(stream, b"0123456789abcdefABCDEF" + BLANKS, fault):
        rest += data.translate(None, BLANKS)
        even = len(rest) // 2 * 2
        yield numpy.unpackbits(numpy.frombuffer(bytes.fromhex(rest[:even].decode("ascii")), "u1"))
        rest = rest[even:]
    if rest:
        raise Fault("there is an odd number of hexadecimal digits")


def _bytes(stream: BinaryIO, one: int) -> Iterator[Bits]:
    for data in _checked(stream, bytes([0, one]), f"byte {{}} is 0x{{:02X}}, neither 0x00 nor 0x{one:02X}"):
        yield (numpy.frombuffer(data, "u1") != 0).astype("u1")


def _text(stream: BinaryIO) -> Iterator[Bits]:
    for data in _checked(stream, b"01" + BLANKS, "character {} is neither 0 nor 1"):
        yield numpy.frombuffer(data.translate(None, BLANKS), "u1") - numpy.uint8(48)


def _samples(chunks: Iterator[bytes], form: str) -> Iterator[Bits]:
    """A sample above zero is a 1."""
    above = below = 0
    for data in chunks:
        if len(data) % FORMS[form][0]:
            raise Fault("the last sample is cut off")
        values = numbers(data, form)
        if not numpy.isfinite(values).all():
            raise Fault("a sample is no number")
        bits = (values > 0).astype("u1")
        above, below = above + int(bits.sum()), below + int((values < 0).sum())
        yield bits
    if (above or below) and not (above and below):
        raise Fault(f"no sample is {'below' if above else 'above'} zero")


def _stored(stream: BinaryIO, form: str) -> Iterator[Bits]:
    return _samples(_chunks(stream), form)


def _symbols(stream: BinaryIO, form: str) -> Iterator[Bits]:
    decoder = DifferentialDecoder()
    for signs in _stored(stream, form):
        yield decoder.push(signs)


def _wav(stream: BinaryIO) -> Iterator[Bits]:
    layout = wav_layout(stream)
    if layout.channels != 1:
        raise Fault(f"the WAV file has {layout.channels} channels")
    yield from _samples(_up_to(stream, layout.length), layout.form)


def _up_to(stream: BinaryIO, length: "int | None") -> Iterator[bytes]:
    """The samples of a WAV file; 24-bit samples need chunks that they divide."""
    left = sys.maxsize if length is None else length
    for data in iter(lambda: stream.read(min(left, 3 * CHUNK)), b""):
        left -= len(data)
        yield data


# What each form is, as help and the command form name it, and its reader.
FORMS_OF_BITS: Dict[str, Tuple[str, Reader]] = {
    "packed": ("packed bits", _packed),
    "bytes": ("unpacked bits, bytes 0 and 1", partial(_bytes, one=1)),
    "bytes255": ("unpacked bits, bytes 0 and 255", partial(_bytes, one=255)),
    "text": ("a text of 0 and 1", _text),
    "hex": ("hexadecimal digits", _hex),
    "s8": ("signed bytes, one sample per bit", partial(_stored, form="s8")),
    "s16": ("16-bit samples, one per bit", partial(_stored, form="s16")),
    "f32": ("soft bits, 32-bit floating point", partial(_stored, form="f32")),
    "wav": ("a WAV file of one sample per bit", _wav),
    "soft": ("signed bytes, one per symbol, as rds --soft reads them", partial(_symbols, form="s8")),
    "soft-f32": ("32-bit floating point, one per symbol", partial(_symbols, form="f32")),
}
NAMES = {form: name for form, (name, _) in FORMS_OF_BITS.items()}
READERS = {form: reader for form, (_, reader) in FORMS_OF_BITS.items()}


def bits_of(stream: BinaryIO, form: str, change: Conversion = Conversion()) -> Iterator[Bits]:
    """The bits of a form, a part at a time."""
    last = numpy.zeros(1, "u1")
    for bits in READERS[form](stream):
        if change.lsb_first:
            bits = bits.reshape(-1, 8)[:, ::-1].ravel()
        if change.inverted:
            bits = bits ^ numpy.uint8(1)
        if change.differential:
            both = numpy.concatenate([last, bits])
            last, bits = both[-1:], both[1:] ^ both[:-1]
        yield bits


def packed_of(parts: Iterator[Bits]) -> Iterator[Tuple[bytes, int]]:
    """Packed bytes, and how many bits they hold; the last byte is filled with zeros."""
    rest = numpy.zeros(0, "u1")
    for bits in parts:
        rest = numpy.concatenate([rest, bits])
        whole = rest.size // 8 * 8
        yield numpy.packbits(rest[:whole]).tobytes(), whole
        rest = rest[whole:]
    yield numpy.packbits(rest).tobytes(), rest.size


DESCRIPTION = """\
Converts bits and samples to packed bits, MSB first, as rds reads them.

If the last byte is not full, zeros fill it, and standard error has the number of bits: give it to rds by --bits."""


def options_pack(parser: argparse.ArgumentParser) -> None:
    parser.description = DESCRIPTION
    parser.epilog = (
        "examples:\n  rds-monitor pack --from bytes bits.dat > recording.bin\n"
        "  rds-monitor pack --from f32 --invert soft.f32 | rds list"
    )
    file: Dict[str, Any] = {"default": "-", "metavar": "FILE"}
    flag = {"action": "store_true"}
    forms = {"dest": "form", "required": True, "choices": sorted(NAMES), "metavar": "FORM"}
    options: Dict[str, Tuple[Dict[str, Any], str]] = {
        "input": ({**file, "nargs": "?", "metavar": "INPUT"}, "the bits (default: - for standard input)"),
        "--from": (forms, "; ".join(f"{name}: {text}" for name, text in NAMES.items())),
        "--lsb-first": (flag, "the bytes are LSB first (packed and hex)"),
        "--invert": (flag, "invert the bits"),
        "--differential": (flag, "decode the bits differentially"),
        "--output": (file, "write to FILE (default: standard output)"),
    }
    for name, (how, text) in options.items():
        parser.add_argument(name, help=text, **how)


class Packer:
    """Makes bytes of bits, eight to a byte: those that do not fill one wait. Without `packs` each has a byte already."""

    def __init__(self, packs: bool):
        self._packs = packs
        self._rest: Bits = numpy.zeros(0, "u1")

    def push(self, bits: Bits, last: bool = False) -> bytes:
        if self._packs:
            bits = numpy.concatenate([self._rest, bits])
            whole = bits.size if last else bits.size // 8 * 8
            self._rest, bits = bits[whole:], numpy.packbits(bits[:whole])
        return bits.tobytes()


class BitWriter:
    """Writes bits, packed or a byte each, or symbols: to a file that begins with its first byte, or standard output, at once."""

    def __init__(self, path: str, packs: bool):
        self._path, self._packer, self.written = path, Packer(packs), 0
        self._stream: Optional[BinaryIO] = sys.stdout.buffer if path == "-" else None

    def push(self, bits: Bits, last: bool = False) -> None:
        self.written += bits.size
        data = self._packer.push(bits, last)
        if data:
            self._stream = self._stream or open(self._path, "wb")
            self._stream.write(data)
            self._stream.flush()


def run_pack(arguments: argparse.Namespace) -> int:
    if arguments.lsb_first and arguments.form not in ("packed", "hex"):
        raise Misuse("--lsb-first is for packed bits and hexadecimal digits")
    if arguments.differential and arguments.form in SYMBOLS:
        raise Misuse("--differential is for bits: those of symbols are decoded")
    change = Conversion(arguments.lsb_first, arguments.invert, arguments.differential)
    stream = sys.stdin.buffer if arguments.input == "-" else open(arguments.input, "rb")
    writer = BitWriter(arguments.output, True)
    for part in bits_of(stream, arguments.form, change):
        writer.push(part)
    writer.push(numpy.zeros(0, "u1"), last=True)
    bits = writer.written
    if not bits:
        raise Fault("there is no bit in the input")
    if bits % 8:
        print(f"rds-monitor pack: {bits} bits, the last byte is not full: rds --bits {bits}", file=sys.stderr)
    return 0
