"""Samples of a signal, from WAV, FLAC or raw files or a pipe, in blocks: real for MPX, complex for IQ."""

import importlib
import os
import signal
import struct
import sys
from contextlib import contextmanager
from dataclasses import dataclass
from typing import Any, BinaryIO, Iterator, List, Optional, Tuple, Union

import numpy
from numpy.typing import NDArray

from ..rows.items import Fault
from .centre import centre_in_auxi, centre_in_name, sigmf_of

Reals = NDArray[numpy.float64]
Complexes = NDArray[numpy.complex128]
Signal = NDArray[Any]

FRAMES_PER_BLOCK = 1 << 16  # of a pipe, so that what comes live is not late
FRAMES_OF_FILE = 1 << 18
UNKNOWN_FRAMES = 1 << 36  # of FLAC: more than its header can say
LARGEST_SAMPLE = 1e12  # well above that of any integer form
# Bytes per sample and full scale of each sample form, low byte first.
FORMS = {"u8": (1, 128.0), "s8": (1, 128.0), "s16": (2, 2.0**15), "s24": (3, 2.0**31)}
FORMS.update(s32=(4, 2.0**31), f32=(4, 1.0), f64=(8, 1.0))
RAW_FORMS = ("f32", "s16", "u8")
# By the format code, 1 for integers and 3 for floating point, and bits per sample.
WAV_FORMS = {(1, 8): "u8", (1, 16): "s16", (1, 24): "s24", (1, 32): "s32", (3, 32): "f32", (3, 64): "f64"}
WAV_EXTENSIBLE = 0xFFFE
LONGEST_CHUNK = 1 << 16  # of a header that is looked at
UNKNOWN_LENGTH = (0, 0xFFFFFFFF)  # written if the length was not known, as into a pipe, or is in a chunk ds64
UNKNOWN_BY_SOX = 0x7FFFF000  # or the whole frames in it
WRAPPED = 1 << 32  # lengths are modulo this if a program does not mind that a file is longer


@dataclass
class Layout:
    """How samples are stored; `length` is that of all of them in bytes, None if only the end of the input tells."""

    rate: int
    channels: int
    form: str
    length: Optional[int] = None
    centre: Optional[float] = None

    @property
    def frame(self) -> int:
        """Bytes of one sample of each channel."""
        return self.channels * FORMS[self.form][0]


@contextmanager
def uninterrupted() -> Iterator[None]:
    """Ctrl-C waits until a block is done: the bits of half a block would be wrong."""
    came: List[int] = []
    before = signal.getsignal(signal.SIGINT)
    if before is signal.default_int_handler:
        signal.signal(signal.SIGINT, lambda number, _: came.append(number))
    try:
        yield
    finally:
        if before is signal.default_int_handler:
            signal.signal(signal.SIGINT, before)
    if came:
        raise KeyboardInterrupt


def beginning_of(blocks: Iterator[Signal], wanted: float) -> List[Signal]:
    """The blocks up to this number of samples."""
    found: List[Signal] = []
    for samples in blocks:
        found.append(samples)
        if sum(map(len, found)) >= wanted:
            break
    return found


def wav_layout(stream: BinaryIO) -> Layout:
    """Reads a WAV header up to the first sample."""
    kind, _, wave = struct.unpack("<4sI4s", _exactly(stream, 12))
    if kind == b"fLaC":
        raise Fault("FLAC is read from a file only, not from a pipe")
    if kind not in (b"RIFF", b"RF64") or wave != b"WAVE":
        raise Fault("the input is neither WAV nor FLAC: name its samples with --raw and --rate")
    described, long_length, centre = b"", None, None
    while True:
        name, length = struct.unpack("<4sI", _exactly(stream, 8))
        if name == b"data":
            break
        body = _exactly(stream, min(length + length % 2, LONGEST_CHUNK))
        left = length + length % 2 - len(body)
        while left:
            left -= len(_exactly(stream, min(left, LONGEST_CHUNK)))
        if name == b"fmt ":
            described = body
        elif name == b"ds64" and length >= 16:
            long_length = struct.unpack_from("<Q", body, 8)[0]
        elif name == b"auxi":
            centre = centre_in_auxi(body)
    if len(described) < 16:
        raise Fault("the WAV file does not say what its samples are")
    code, channels, rate, _, _, width = struct.unpack_from("<HHIIHH", described)
    if code == WAV_EXTENSIBLE and len(described) >= 26:
        code = struct.unpack_from("<H", described, 24)[0]
    if (code, width) not in WAV_FORMS:
        read = "integers of 8 to 32 bits are, and floating point of 32 or 64"
        raise Fault(f"WAV samples of format {code} with {width} bits are not read: {read}")
    if channels == 0:
        raise Fault("the WAV file has no channel")
    layout = Layout(rate, channels, WAV_FORMS[code, width], centre=centre)
    by_sox = UNKNOWN_BY_SOX // layout.frame * layout.frame
    known = None if length in (*UNKNOWN_LENGTH, by_sox) else length
    layout.length = long_length or known
    return layout


def _wrapped(stream: BinaryIO, length: int) -> int:
    """By how much the samples of a file are longer than a length of 32 bits says: no chunk after them is as long."""
    here, size = stream.tell(), stream.seek(0, os.SEEK_END)
    stream.seek(here)
    return max(0, size - here - length) // WRAPPED * WRAPPED


def _exactly(stream: BinaryIO, length: int) -> bytes:
    data = stream.read(length)
    if len(data) < length:
        raise Fault("the WAV file ends within its header")
    return data


def numbers(data: bytes, form: str, kind: str = "f8") -> Reals:
    """The samples of some bytes, around 0; 24 bits are the upper ones of 32. `kind` is the numpy type of the numbers."""
    if form == "u8":
        return numpy.subtract(numpy.frombuffer(data, "u1"), 127.5, dtype=kind)
    if form == "s24":
        wide = numpy.zeros((len(data) // 3, 4), "u1")
        wide[:, 1:] = numpy.frombuffer(data, "u1").reshape(-1, 3)
        return wide.view("<i4").ravel().astype(kind)
    stored = {"s8": "i1", "s16": "<i2", "s32": "<i4", "f32": "<f4", "f64": "<f8"}[form]
    with numpy.errstate(invalid="ignore"):
        # A signalling NaN among the samples is refused where they are judged.
        return numpy.frombuffer(data, stored).astype(kind)


def channels_of(table: Reals, channels: Tuple[int, ...]) -> Signal:
    """One channel as real samples, or two as complex ones. The table has a row for each sample of all channels."""
    if len(channels) == 1:
        return numpy.ascontiguousarray(table[:, channels[0]])
    if channels == (0, 1) and table.shape[1] == 2:
        return table.view("c8" if table.dtype == numpy.float32 else "c16").ravel()
    return table[:, channels[0]] + 1j * table[:, channels[1]]


def checked(samples: Signal, first: int) -> Iterator[Signal]:
    """The samples, up to one that is no number of a signal; `first` is the number of those before."""
    parts = samples.view(samples.real.dtype) if numpy.iscomplexobj(samples) else samples
    strange = numpy.flatnonzero(~(numpy.abs(parts) < LARGEST_SAMPLE))
    if not strange.size:
        yield samples
        return
    place = int(strange[0]) // (parts.size // samples.size)
    yield samples[:place]
    raise Fault(f"sample {first + place + 1} is {parts[strange[0]]}: no signal has it")


class StoredSamples:
    """Samples of a WAV or raw file."""

    def __init__(self, stream: BinaryIO, layout: Layout, channels: Tuple[int, ...]):
        self.rate, self.is_iq, self.full_scale = layout.rate, len(channels) == 2, FORMS[layout.form][1]
        self.centre = layout.centre
        self._stream, self._layout, self._channels = stream, layout, channels
        self._frames = FRAMES_OF_FILE if stream.seekable() else FRAMES_PER_BLOCK

    def blocks(self) -> Iterator[Signal]:
        """A file that ends too early gives what is there, then a fault."""
        layout, read = self._layout, 0
        while layout.length is None or read < layout.length:
            wanted = self._frames * layout.frame
            data = self._stream.read(wanted if layout.length is None else min(wanted, layout.length - read))
            if not data:
                break
            frames = len(data) // layout.frame
            values = numbers(data[: frames * layout.frame], layout.form, "f4" if self.is_iq else "f8")
            samples = channels_of(values.reshape(-1, layout.channels), self._channels)
            if layout.form[0] == "f" and frames:
                yield from checked(samples, read // layout.frame)
            else:
                yield samples
            read += len(data)
        self._judge_end(read)

    def _judge_end(self, read: int) -> None:
        layout = self._layout
        if not read:
            raise Fault("there is no sample in the input")
        if layout.length is not None and read < layout.length:
            known = f"{read} of the {layout.length} bytes of samples that its header says"
            raise Fault(f"the file is cut off: it has {known}")
        if read % layout.frame:
            rest = read % layout.frame
            raise Fault(f"the input ends within a sample, {rest} bytes after the last whole one")


class Flac:
    """Samples of a FLAC file, by the module soundfile."""

    full_scale = 1.0

    def __init__(self, path: str, channel: Optional[int], is_iq: bool):
        try:
            soundfile: Any = importlib.import_module("soundfile")
        except ImportError:
            cure = "install Debian's package python3-soundfile"
            raise Fault(f"FLAC needs the Python module soundfile: {cure}") from None
        self._errors = soundfile.SoundFileError
        try:
            self._file: Any = soundfile.SoundFile(path)
        except soundfile.SoundFileError as error:
            raise Fault(f"{path!r} cannot be read: {error}") from None
        self.rate, self.is_iq, self.centre = int(self._file.samplerate), is_iq, centre_in_name(path)
        self._channels = chosen_channels(self._file.channels, channel, is_iq)

    def blocks(self) -> Iterator[Signal]:
        """The samples up to the end, or to a fault if the file is cut off. One that was written into a pipe does not say its length."""
        read, length, is_over = 0, self._file.frames, False
        while not is_over:
            frames = numpy.full((FRAMES_PER_BLOCK, self._file.channels), numpy.nan)
            try:
                count = len(self._file.read(out=frames))
                is_over = count < FRAMES_PER_BLOCK
            except self._errors:
                # An error does not say how many frames were read.
                count, is_over = int(numpy.isfinite(frames[:, 0]).sum()), True
            read += count
            if count:
                yield channels_of(frames[:count], self._channels)
        if read < length < UNKNOWN_FRAMES:
            raise Fault(f"the file is cut off: it has {read} of the {length} samples that its header says")


# A signal: its sample rate, whether it is IQ, the sample of full scale, the frequency of the centre if known, and samples by the block.
SampleSource = Union[StoredSamples, Flac]


def chosen_channels(count: int, channel: Optional[int], is_iq: bool) -> Tuple[int, ...]:
    """The indices of the channels that are read: one of MPX, I and Q of IQ."""
    if is_iq:
        if count != 2:
            raise Fault(f"IQ has two channels, and the input has {count}")
        return 0, 1
    if channel is None:
        if count > 1:
            cure = "name the one with MPX by --channel, or use --iq if they are I and Q"
            raise Fault(f"the input has {count} channels: {cure}")
        return (0,)
    if not 1 <= channel <= count:
        raise Fault(f"there is no channel {channel} of {count}")
    return (channel - 1,)


def open_samples(
    path: str, *, raw: Optional[str], rate: Optional[int], channel: Optional[int], is_iq: bool
) -> SampleSource:
    """The signal in a file, or on standard input if the path is -. A rate overrides that of a header."""
    sigmf = sigmf_of(path) or sigmf_of(os.path.realpath(path))
    path, named = sigmf.data if sigmf else path, None if path == "-" else centre_in_name(path)
    if path == "-":
        stream: BinaryIO = sys.stdin.buffer
    else:
        try:
            stream = open(path, "rb")
        except OSError as error:
            raise Fault(f"{path!r} cannot be read: {error.strerror}") from None
    if sigmf and raw is None:
        raw, rate, is_iq = sigmf.raw, rate or sigmf.rate, True
    if raw is not None:
        assert rate is not None
        centre = sigmf.centre if sigmf else named
        layout = Layout(rate, 2 if is_iq else 1, raw, centre=centre)
        return StoredSamples(stream, layout, (0, 1) if is_iq else (0,))
    if path != "-" and os.path.isfile(path):
        is_flac = stream.read(4) == b"fLaC"
        stream.seek(0)
        if is_flac:
            stream.close()
            flac = Flac(path, channel, is_iq)
            flac.rate = rate or flac.rate
            return flac
    layout = wav_layout(stream)
    if layout.length is not None and stream.seekable():
        layout.length += _wrapped(stream, layout.length)
    channels = chosen_channels(layout.channels, channel, is_iq)
    layout.rate, layout.centre = rate or layout.rate, named if layout.centre is None else layout.centre
    return StoredSamples(stream, layout, channels)
