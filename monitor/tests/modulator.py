"""MPX and IQ of an FM station with RDS, for tests of the receiver, of which it knows nothing.

The shape of a symbol is that of IEC 62106, taken at each sample's own time, so that any sample rate and any error of
the clocks can be had. The MPX, by deviation, 75 kHz being 1: left and right channel (noise up to 15 kHz, some of it
in both), pilot 0.09 at 19 kHz, their difference at 38 kHz, RDS with the power of a carrier of 0.03 at 57 kHz, and
white noise. The ratio of signal to noise is that in the channel of RDS: the mean power of RDS by the power of the
noise in 4.8 kHz, between 54.6 and 59.4 kHz.
"""

from __future__ import annotations

import struct
import sys
from functools import lru_cache
from typing import Any, Optional, Sequence, Tuple

import numpy
from numpy.typing import NDArray

Array = NDArray[Any]

BIT_RATE = 1187.5
CHIP_RATE = 2 * BIT_RATE  # a biphase symbol is two impulses of opposite sign, here named chips
CARRIER_HZ, PILOT_HZ, CHANNEL_HZ = 57000, 19000, 4800
AUDIO_LEVEL, PILOT_LEVEL, RDS_LEVEL = 0.8, 0.09, 0.03
DEVIATION_HZ = 75000
REACH = 8  # chips on each side beyond which an impulse is left out: its shape has fallen to a thousandth


def chips_of(bits: Array) -> Array:
    """Differential encoding, then biphase: a 1 is an impulse and its negative half a bit later, a 0 the reverse."""
    signs = 2.0 * numpy.bitwise_xor.accumulate(bits) - 1
    return numpy.column_stack([signs, -signs]).ravel()


def baseband(chips: Array, times: Array) -> Array:
    """The chips at times in chips, by power 1. Each has the impulse response of cos(pi f td / 4), |f| < 2 / td, which is
    cos(2 pi x) / (1 - 16 x^2) at x chips from its middle."""
    padded = numpy.concatenate([numpy.zeros(REACH), chips, numpy.zeros(REACH + 1)])
    # a part at a time, which is in the cache of the processor
    parts = [impulses(padded, times[at : at + 16384]) for at in range(0, times.size, 16384)]
    signal = numpy.concatenate([numpy.zeros(0), *parts])
    return signal / numpy.sqrt(numpy.mean(signal**2))


def impulses(padded: Array, times: Array) -> Array:
    first = numpy.floor(times).astype(int)
    within = times - first
    # The cosine is the same for all chips. At a quarter of a chip the response is pi / 4.
    total, at_poles = numpy.zeros(times.size), numpy.zeros(times.size)
    chip, below = numpy.empty(times.size), numpy.empty(times.size)
    for k in range(-REACH + 1, REACH + 1):
        numpy.take(padded[k + REACH :], first, out=chip, mode="clip")
        numpy.subtract(within, k, out=below)
        below *= below
        below *= -16
        below += 1
        if k in (0, 1):
            poles = numpy.nonzero(numpy.abs(below) < 1e-8)
            at_poles[poles] += numpy.pi / 4 * chip[poles]
            below[poles] = numpy.inf
        chip /= below
        total += chip
    result: Array = numpy.cos(2 * numpy.pi * within) * total + at_poles
    return result


def low_noise(random: numpy.random.Generator, size: int, rate: int) -> Array:
    """Noise up to 15 kHz, by its spectrum."""
    spectrum = numpy.zeros(size // 2 + 1, complex)
    count = int(15000 / rate * size)
    spectrum[1:count] = random.standard_normal(count - 1) + 1j * random.standard_normal(count - 1)
    return numpy.fft.irfft(spectrum, size)


@lru_cache(maxsize=8)
def longer_audio(longer: int, rate: int) -> Array:
    """Samples of a stereo programme: the sum of both channels, and their difference at 38 kHz, within -1 and 1 but for rare
    peaks."""
    random = numpy.random.default_rng(5)
    # Half of the power of each channel is in both.
    both, difference = (low_noise(random, longer, rate) for _ in range(2))
    stereo = numpy.sin(4 * numpy.pi * PILOT_HZ / rate * numpy.arange(longer))
    programme = numpy.sqrt(3) * both + difference * stereo
    result: Array = programme / (4 * numpy.std(programme))
    result.setflags(write=False)
    return result


def audio(size: int, rate: int) -> Array:
    """Samples of the programme, cut out of more than is asked for: the lengths that transform fast are powers of two."""
    return longer_audio(1 << size.bit_length(), rate)[:size]


@lru_cache(maxsize=8)
def sent(data: bytes, rate: int, clock_offset: float) -> Array:
    """The baseband of packed bits."""
    chips_a_second = CHIP_RATE * (1 + clock_offset * 1e-6)
    chips = chips_of(numpy.unpackbits(numpy.frombuffer(data, "u1")))
    result = baseband(chips, numpy.arange(int(chips.size / chips_a_second * rate)) / rate * chips_a_second)
    result.setflags(write=False)
    return result


@lru_cache(maxsize=8)
def mpx(
    data: bytes,
    rate: int = 192000,
    snr: float = 30,
    carrier_offset: float = 0,
    clock_offset: float = 0,
    phase: float = 0,
    flip: Optional[float] = None,
    stereo: bool = True,
    seed: int = 1,
    jump: float = 0,
    level: float = RDS_LEVEL,
    loudness: float = AUDIO_LEVEL,
) -> Array:
    """The MPX of packed bits. Offsets are in Hz of the 57 kHz and in parts in a million of the bits, `phase` is in
    degrees, and from second `flip` on it is inverted. The pilot's phase jumps by `jump` degrees each quarter of a
    second, and that of RDS by three times as many."""
    random = numpy.random.default_rng(seed)
    shape = sent(data, rate, clock_offset)
    times = numpy.arange(shape.size) / rate
    jumps = numpy.radians(jump) * numpy.floor(4 * times) if jump else 0.0
    carrier = 2 * numpy.pi * (CARRIER_HZ + carrier_offset) * times + numpy.radians(phase) + 3 * jumps
    rds = shape * numpy.sin(carrier) * level
    # White noise has its power spread evenly up to half of the sample rate.
    noise = numpy.mean(rds**2) / 10 ** (snr / 10) * (rate / 2) / CHANNEL_HZ
    signal = rds + random.standard_normal(times.size) * numpy.sqrt(noise) + loudness * audio(times.size, rate)
    if stereo:
        signal += PILOT_LEVEL * numpy.sin(2 * numpy.pi * PILOT_HZ * times + jumps)
    result: Array = signal if flip is None else numpy.where(times < flip, signal, -signal)
    # Several tests have it.
    result.setflags(write=False)
    return result


Path = Tuple[float, float, float, float]


def dropped(signal: Array, count: int, every: int) -> Array:
    """Without `count` of each `every` samples."""
    places = numpy.arange(signal.size)
    return signal[(places < every) | (places % every >= count)]


def phases(multiplex: Array, rate: int) -> Array:
    """The integral of the frequency at each sample: of the means between samples, whose response is a sinc."""
    size = 1 << multiplex.size.bit_length()
    spectrum = numpy.fft.rfft(multiplex, size) * numpy.sinc(numpy.fft.rfftfreq(size))
    means = numpy.fft.irfft(spectrum)[: multiplex.size]
    return 2 * numpy.pi * DEVIATION_HZ / rate * numpy.cumsum(means)


def delayed(signal: Array, samples: float) -> Array:
    """By a number of samples that need not be whole."""
    frequencies = numpy.fft.fftfreq(signal.size)
    return numpy.fft.ifft(numpy.fft.fft(signal) * numpy.exp(-2j * numpy.pi * frequencies * samples))


def iq(
    multiplex: Array,
    rate: int,
    paths: Sequence[Path] = (),
    cnr: Optional[float] = None,
    offset: float = 0,
    seed: int = 1,
) -> Array:
    """FM by MPX of the same rate. Each path beside the first has a delay in microseconds, a gain, a phase in degrees
    and a Doppler shift in Hz. `cnr` is the ratio of carrier to noise in 200 kHz in dB, `offset` the station's from
    the centre in Hz."""
    sent = numpy.exp(1j * phases(multiplex, rate))
    times = numpy.arange(sent.size) / rate
    received = sent.copy()
    for delay, gain, phase, doppler in paths:
        turning = gain * numpy.exp(1j * (numpy.radians(phase) + 2 * numpy.pi * doppler * times))
        received += turning * delayed(sent, delay * 1e-6 * rate)
    if cnr is not None:
        random = numpy.random.default_rng(seed + 100)
        power = numpy.mean(numpy.abs(received) ** 2) / 10 ** (cnr / 10) * rate / 200e3
        noise = random.standard_normal(sent.size) + 1j * random.standard_normal(sent.size)
        received += numpy.sqrt(power / 2) * noise
    return received * numpy.exp(2j * numpy.pi * offset * times) if offset else received


# ---- samples as files


def stored(values: Array, form: str, peak: float = 3.0) -> bytes:
    """Real or complex samples in a form, `peak` at full scale."""
    flat = values.view("f8") if numpy.iscomplexobj(values) else values
    if form in ("f32", "f64"):
        return flat.astype("<f4" if form == "f32" else "<f8").tobytes()
    bits = {"u8": 8, "s16": 16, "s24": 24, "s32": 32}[form]
    full = 2 ** (bits - 1)
    whole = numpy.clip(numpy.rint(flat / peak * (full - 1)), -full, full - 1)
    if form == "u8":
        return (whole + 128).astype("u1").tobytes()
    if form == "s24":
        return whole.astype("<i4").view("u1").reshape(-1, 4)[:, :3].tobytes()
    return whole.astype("<i2" if bits == 16 else "<i4").tobytes()


def _chunk(name: bytes, body: bytes) -> bytes:
    return name + struct.pack("<I", len(body)) + body


def wav(
    data: bytes, form: str, rate: int, channels: int = 1, long_form: bool = False, more: bytes = b""
) -> bytes:
    """A WAV file of samples; the long form is RF64, whose lengths are in a chunk of their own. `more` is a chunk
    before them."""
    code, width = (3 if form[0] == "f" else 1), int(form[1:]) // 8
    block = width * channels
    described = struct.pack("<HHIIHH", code, channels, rate, rate * block, block, 8 * width)
    if not long_form:
        body = b"WAVE" + _chunk(b"fmt ", described) + more + _chunk(b"data", data)
        return b"RIFF" + struct.pack("<I", len(body)) + body
    # The format is extensible, with its code in the first bytes of a GUID.
    guid = struct.pack("<H", code) + bytes.fromhex("000000001000800000aa00389b71")
    extensible = struct.pack("<H", 0xFFFE) + described[2:] + struct.pack("<HHI", 22, 8 * width, 0) + guid
    rest = _chunk(b"fmt ", extensible) + b"data" + struct.pack("<I", 0xFFFFFFFF)
    lengths = struct.pack("<QQQI", 4 + 36 + len(rest) + len(data), len(data), len(data) // block, 0)
    return b"RF64" + struct.pack("<I", 0xFFFFFFFF) + b"WAVE" + _chunk(b"ds64", lengths) + rest + data


def words(seed: int, count: int) -> "list[tuple[int, int, int, int]]":
    """Groups of pseudo-random words."""
    random = numpy.random.default_rng(seed)
    return [tuple(int(word) for word in row) for row in random.integers(0, 65536, (count, 4))]


def make_minute(path: str) -> None:
    """A minute of MPX in a WAV file of 192,000 samples per second."""
    from conftest import encode

    with open(path, "wb") as file:
        file.write(wav(stored(mpx(encode(words(4, 685)), 192000), "s16"), "s16", 192000))


if __name__ == "__main__":
    make_minute(sys.argv[1])
