"""Symbols for soft decisions, as `rds-monitor demod --soft` writes them."""

from __future__ import annotations

import json
import math
from fractions import Fraction
from pathlib import Path
from typing import Callable, Dict, List, Tuple

import numpy
import pytest
from numpy.lib.stride_tricks import sliding_window_view
from captures import Sent, alone, captured
from conftest import encode, monitor, rds
from measure_demod import bits_of
from modulator import Array, baseband, chips_of, dropped, iq, mpx, stored, wav, words

from rds_monitor.rows.blocks import BlockCounter
from rds_monitor.signal.fm import Equaliser, FmReceiver, channel_filter, station_channels
from rds_monitor.signal.phase import PhaseTrack
from rds_monitor.signal.receiver import Capture
from rds_monitor.signal.soft import SoftSymbols
from rds_monitor.signal.symbols import Pairing, SymbolChain, Symbols, interpolated

RATE = 192000
SENT = encode(words(5, 60))


def signed(data: Array) -> Array:
    return data.view("i1").astype(int)


def bits_between(symbols: Array) -> Array:
    """A bit is 1 if exactly one of the two symbols is above 0."""
    above = symbols > 0
    return (above[1:] != above[:-1]).astype("u1")


def test_a_phase_goes_on_as_it_turned() -> None:
    """Over steps of which nothing is known, and as fast as it may. The coherence is by the weights of the four steps on both sides."""
    values = numpy.exp(0.05j * numpy.arange(900))
    values[400:600] = 0
    track = PhaseTrack(4, 8, 0.2, 0.5)
    parts = zip(*map(track.push, numpy.split(values, 300)))
    phase, _, coherence = numpy.stack([numpy.concatenate(column) for column in parts])
    assert numpy.diff(phase) == pytest.approx(numpy.full(891, 0.05))
    weights = [(1 + math.cos(math.pi * beside / 5)) / 10 for beside in range(-4, 5)]
    assert coherence[395:405] == pytest.approx([sum(weights[:count]) for count in range(9, -1, -1)])
    assert PhaseTrack(4, 8, 0.2, 0.5).push(numpy.exp(0.3j * numpy.arange(60))).turn[9:] == pytest.approx(0.2)


def test_a_cubic_between_samples() -> None:
    cubic, places = numpy.polynomial.Polynomial([1, -3, 0.5, 2j]), numpy.arange(1, 5, 0.3)
    assert interpolated(cubic(numpy.arange(7)), places) == pytest.approx(cubic(places))


@pytest.mark.parametrize("ppm, hertz, begin", [(0, 0, 12), (-2900, 29.5, 6), (3100, 0, 12), (0, -30.5, 12)])
def test_how_far_clock_and_carrier_are_followed(ppm: float, hertz: float, begin: int) -> None:
    """To 0.3 % and to 30 Hz, by which the squares of eight symbols are less coherent. The first symbol has a sample before it."""
    places, chips = numpy.arange(28500), chips_of(numpy.unpackbits(numpy.frombuffer(SENT, "u1")))
    signal = baseband(chips[2 - begin // 6 :], places * (1 + ppm / 1e6) / 6)
    signal, chain = signal * numpy.exp(2j * math.pi * hertz / 14250 * places), SymbolChain(14250.0)
    parts = [*map(chain.push, numpy.split(signal, 50)), chain.finish()]
    found = Symbols(*(numpy.concatenate(column, axis=-1) for column in zip(*parts)))
    inner, turn = slice(60, -60), 2 * math.pi * hertz / 1187.5
    assert found.fast[inner] == pytest.approx(min(ppm / 1e6, 0.003), abs=1e-5)
    assert found.offset[inner] == pytest.approx(max(hertz, -30), abs=0.1)
    if ppm < 3000 and hertz > -30:
        coherence = math.sin(8 * turn) / math.sin(turn) / 8 if turn else 1
        assert found.coherence[inner] == pytest.approx(coherence, abs=0.005)
        assert found.symbols[160:-160].imag == pytest.approx(0, abs=0.1)
        end = begin + 12 * found.symbols.size / (1 + ppm / 1e6)
        assert found.locked.all() and (chain.begin, chain.end) == pytest.approx((begin, end), abs=1.5)


@pytest.mark.parametrize("way", [0, 1])
def test_chips_are_paired_as_before(way: int) -> None:
    """Through silence, in which neither way is stronger."""
    pairing, bits = Pairing(), numpy.random.default_rng(1).integers(0, 2, 640)
    chips = numpy.concatenate([numpy.zeros(way), chips_of(bits)[:1280], numpy.zeros(1280 - way)])
    for part in numpy.split(chips + 0j, 20):
        pairing.push(part)
    assert pairing.first_way == pairing.way == way


# ---- by a definition


def random_symbols(seed: int, count: int) -> Array:
    """With an amplitude that fades, bursts of noise, and symbols that were lost."""
    random = numpy.random.default_rng(seed)
    places = numpy.arange(count)
    noise = numpy.where(places // 30 % 7 == 3, 1.5, 0.4)
    values = random.standard_normal((count, 2)) @ numpy.array([1, 1j]) * noise
    values += (2 * random.integers(0, 2, count) - 1) * (1.2 + numpy.cos(places / 200))
    values[300:340] = values[random.integers(0, count, count // 60)] = 0
    return values


def stated(symbols: Array) -> List[int]:
    """The amplitude is that of 32 segments of eight symbols on both sides, the noise the larger one of 8 and of 2."""
    found: List[int] = []

    def mean(middle: int, reach: int, of: Callable[[complex], float]) -> float:
        near = symbols[max(0, 8 * (middle - reach)) : 8 * (middle + reach + 1)].tolist()
        squares = [of(value) ** 2 for value in near if value != 0]
        return math.fsum(squares) / max(1, len(squares))

    for number, value in enumerate(symbols.tolist()):
        own = number // 8
        power = mean(own, 32, lambda one: one.real) - mean(own, 32, lambda one: one.imag)
        noise = max(mean(own, reach, lambda one: one.imag) for reach in (8, 2))
        size = min(127, max(1, int(16 * 2 * math.sqrt(max(0.0, power)) * abs(value.real) / noise)))
        found.append(0 if value == 0 else size if value.real > 0 else -size)
    return found


@pytest.mark.parametrize("count", [1, 7, 8, 300, 1500, 1505])
def test_symbols_by_the_definition(count: int) -> None:
    symbols, maker = random_symbols(count, count), SoftSymbols()
    found = signed(numpy.concatenate([maker.push(symbols), maker.finish()])).tolist()
    assert found == stated(symbols)
    assert count < 1000 or {-127, -1, 0, 1, 127} < {*found} and -128 not in found


@pytest.mark.parametrize("size", [1, 8, 99])
def test_symbols_in_parts(size: int) -> None:
    symbols, whole, maker = random_symbols(2, 1200), SoftSymbols(), SoftSymbols()
    parts = [maker.push(symbols[at : at + size]) for at in range(0, symbols.size, size)]
    assert sum(map(len, parts)) >= 1200 - 33 * 8
    expected = numpy.concatenate([whole.push(symbols), whole.finish()])
    assert (numpy.concatenate([*parts, maker.finish()]) == expected).all()


@pytest.mark.parametrize("scale", [1e-9, 1.0, 1e9])
def test_they_are_as_sure_as_they_are_right(scale: float) -> None:
    """A sign of c is wrong at most once in 1 + exp(c / 16), at any level; the larger mean of noise makes this less."""
    random, count = numpy.random.default_rng(4), 200_000
    sent = 2 * random.integers(0, 2, count) - 1
    heard, maker = sent + random.standard_normal((count, 2)) @ numpy.array([1, 1j]), SoftSymbols()
    found = signed(numpy.concatenate([maker.push(scale * heard), maker.finish()]))
    for low in range(1, 60, 10):
        some = (abs(found) >= low) & (abs(found) < low + 10)
        wrong = (numpy.sign(found) != sent)[some].mean()
        assert 0.5 < wrong * (1 + math.exp((low + 5) / 16)) < 1.02


@pytest.mark.parametrize(
    "symbols", [numpy.zeros(900, complex), numpy.full(900, 1e-300 + 0j), numpy.ones(900, complex)]
)
def test_symbols_without_noise(symbols: Array) -> None:
    maker = SoftSymbols()
    found = signed(numpy.concatenate([maker.push(symbols), maker.finish()]))
    assert (found == (127 if symbols[0] == 1 else symbols[0].real > 0)).all()


def equalised(signal: Array) -> Array:
    """32 taps are fitted in blocks of 1,024 samples, with half of the sums of the blocks before. Those nearest to an amplitude of 1 are held
    to the taps before by 0.02, and to a plain filter by twice the variance of the amplitude."""
    padded = numpy.concatenate([numpy.zeros(31), signal, numpy.zeros(1024)])
    taps, own, wanted = numpy.zeros((3, 32), complex)
    taps[16], variance, found = 1 / abs(padded[:1055]).mean(), 0.1, []
    beside = numpy.subtract.outer(range(32), range(32))
    for begin in range(0, signal.size, 1024):
        block = padded[begin : begin + 1055]
        windows = sliding_window_view(block, 32)[:, ::-1]
        output = windows @ taps
        sizes = numpy.maximum(abs(output), 1e-12)
        variance = (variance + min(1, sizes.var() / sizes.mean() ** 2)) / 2
        own = own / 2 + [block[lag : lag + 1024] @ block[:1024].conj() for lag in range(32)]
        wanted = wanted / 2 + windows.conj().T @ (output / sizes)
        squares = numpy.where(beside >= 0, own[abs(beside)], own[abs(beside)].conj())
        steady, plain, right = 0.02 * own[0].real, 2 * variance * own[0].real, wanted.copy()
        right[16] *= 1 + 2 * variance
        after = numpy.linalg.solve(squares + (steady + plain) * numpy.eye(32), right + steady * taps)
        found.append(output + windows @ (after - taps) * numpy.arange(1024) / 1024)
        taps = after
    return numpy.concatenate(found)[: signal.size]


def test_the_equaliser_by_its_definition() -> None:
    """The signal has an echo and noise, and its plain copy comes 16 samples late."""
    random, equaliser = numpy.random.default_rng(1), Equaliser()
    sent = numpy.exp(1j * random.normal(0, 0.4, 5000).cumsum())
    signal = 2 * sent + 1.2j * numpy.roll(sent, 3) + random.normal(0, 0.1, 5000)
    parts = [*map(equaliser.push, numpy.array_split(signal, 3)), equaliser.finish()]
    found, plain = numpy.concatenate(parts, axis=1)
    assert found == pytest.approx(equalised(signal)) and (plain[16:] == signal[:-16]).all()
    # An amplitude below any sample form is silence.
    assert [Equaliser().push(numpy.full(1100, size + 0j)).any() for size in (1e-10, 0.5)] == [False, True]


def test_the_channel_and_the_discriminator() -> None:
    """IQ of up to 256,000 Hz is one channel. Other IQ is cut to 234,000 Hz or a little more, in blocks of a sixtieth of a second or more.
    The filter has a half in the middle of its edge. A tenth of 75 kHz is 0.1."""
    given = (256000, 0), (256001, 0), (245760, 1), (249856, 1), (2400000, 1e5)
    cut = [station_channels(rate, [offset]) for rate, offset in given]
    bands = [found.bands[0] for found in cut if found]
    assert cut[0] is None and [band.block for band in bands] == [8192, 4096, 8192, 65536]
    assert all(234000 <= band.rate_out < 245761 and not band.is_real for band in bands)
    narrow = station_channels(200000, [5e3])
    assert narrow and (narrow.bands[0].rate_out, narrow.bands[0].kept) == (200000, 4096)
    frequencies = numpy.array([0, 82e3, -99e3, 116e3, -2e5])
    assert channel_filter(frequencies) == pytest.approx([1, 1, 0.5, 0, 0])
    tone, receiver = 2 * numpy.exp(0.075j * math.pi * numpy.arange(900)), FmReceiver(Fraction(200000), False)
    parts = [*map(receiver.push, numpy.split(tone.astype("c8"), 3)), receiver.finish()]
    (found,) = numpy.concatenate(parts, axis=1)
    assert found[1:] == pytest.approx(0.1, rel=1e-5) and found.size == 900
    assert (*receiver.level, receiver.response(1e5)) == pytest.approx((3600, 900, 2 / math.pi))


# ---- of a signal


SIGNALS: Dict[str, Array] = {
    "strong": mpx(SENT, RATE, snr=20),
    "weak": mpx(SENT, RATE, snr=-3),
    "dropped": dropped(mpx(SENT, RATE, snr=2), 500, RATE),
    "jumps": mpx(SENT, RATE, snr=10, jump=30),
    "echo": iq(mpx(SENT, RATE, snr=60), RATE, [(10, 0.7, 0, 2)], 20),
}


@pytest.mark.parametrize("name", SIGNALS)
def test_the_bits_of_symbols_are_those_of_demod(name: str) -> None:
    signal = SIGNALS[name]
    options = RATE, numpy.iscomplexobj(signal), 1.0, [0.0], [0.0] if name == "echo" else []
    (bits,), (symbols,) = (bits_of(Capture(*options, soft), signal) for soft in (False, True))
    found = signed(symbols)
    assert (bits_between(found) == bits).all() and found.size == bits.size + 1 > 5900
    # Nearly all of a strong signal's symbols are at the top, of either sign.
    assert {-127, 127} <= {*found.tolist()} and (name != "strong" or (abs(found) == 127).mean() > 0.999)


def test_lost_symbols_are_erasures() -> None:
    """Of 61,234 samples that were dropped, the symbols that are not whole groups."""
    signal = SIGNALS["strong"]
    signal = numpy.concatenate([signal[:400_000], signal[461_234:]])
    found = signed(bits_of(Capture(RATE, soft=True), signal)[0])
    lost = numpy.flatnonzero(found == 0)
    assert lost.size == round(61_234 / RATE * 1187.5) % 104 and lost[-1] - lost[0] == lost.size - 1


@pytest.mark.parametrize("count, jump", [(20, 0), (100, 0), (0, 30)])
def test_bits_that_are_no_blocks_go_on_by_the_clock(count: int, jump: float) -> None:
    """A symbol of 162 samples lacks some of them, and is counted; or the carrier jumps, and nothing is lost. The bits after it keep their
    distance from the first one."""
    bits = numpy.random.default_rng(3).integers(0, 2, 4000)
    signal = mpx(numpy.packbits(bits).tobytes(), RATE, jump=jump)
    signal = numpy.delete(signal, slice(300_000, 300_000 + count))
    (found,) = bits_of(Capture(RATE), signal)
    assert all((found[at : at + 200] == bits[at + 2 : at + 202]).all() for at in (610, 2690))


@pytest.mark.parametrize("count", [1, 2, 5])
def test_bits_that_are_not_known_are_odd_or_even(count: int) -> None:
    """If they are in one block, of which each place is tried here, with no more bits than it has. Five may make either offset word of
    block 3."""
    bits = numpy.unpackbits(numpy.frombuffer(SENT, "u1"))
    for place in range(1040, 1144):
        counter = BlockCounter()
        counter.push(bits[:place])
        parity = counter.parity_over(count, bits[place + count : place // 26 * 26 + 26])
        odd = bits[place : place + count].sum() % 2 if place % 26 + count <= 26 else None
        assert parity == odd or parity is None and count == 5 and 1040 + 52 <= place < 1040 + 78
    early = BlockCounter()
    assert early.parity_over(1, bits) is None
    early.push(bits[:1045])
    assert early.parity_over(count, bits[1045 + count : 1065]) is early.parity_over(6, bits[1051:]) is None


def test_blocks_are_counted_bit_by_bit() -> None:
    """All but the first and the last one so far. The place of groups is known until no block came for as long as two of them. Any two
    that follow each other are enough."""
    counter, bits = BlockCounter(), numpy.unpackbits(numpy.frombuffer(SENT, "u1"))
    for bit in bits[:2080]:
        counter.push(numpy.array([bit]))
    assert (counter.bits, counter.blocks, counter.phase) == (2080, 78, 0)
    for count, phase in ((26, 0), (208, 0), (1, None)):
        counter.push(numpy.zeros(count, "u1"))
        assert (counter.blocks, counter.phase) == (79, phase)
    assert counter.share == 79 * 26 / 2315
    for place in (0, 26, 52, 78):
        counter = BlockCounter()
        counter.push(numpy.pad(bits[place : place + 52], 26))
        assert counter.blocks == 2


def test_the_sign_goes_on_after_a_jump() -> None:
    """Else each second time a bit alone would be wrong, which flips of few symbols do not mend."""
    signal = dropped(mpx(SENT, RATE, snr=10), 100, RATE)
    (symbols,) = bits_of(Capture(RATE, soft=True), signal)
    text = rds("list", "--soft", data=symbols.tobytes()).decode()
    assert numpy.flatnonzero(symbols == 0).size >= 3 and "total,lost,0," in text


# ---- the command

S16 = ("--raw", "s16", "--rate", RATE)


def test_the_command() -> None:
    data = stored(SIGNALS["weak"], "s16")
    bits = numpy.frombuffer(monitor("demod", *S16, "--unpacked", data=data).stdout, "u1")
    done = monitor("demod", *S16, "--soft", "--json", data=data)
    symbols = signed(numpy.frombuffer(done.stdout, "u1"))
    assert (bits_between(symbols) == bits).all() and 5 < abs(symbols).mean() < 120
    assert json.loads(done.stderr)["symbols"] == symbols.size and b"bits" not in done.stderr
    done = monitor("demod", *S16, "--soft", "--unpacked", data=data)
    assert done.returncode == 2 and b"--soft and --unpacked contradict each other" in done.stderr


# Of a weak signal a file, or the name and options of raw samples.
INPUTS: Dict[str, Tuple[str, ...]] = {
    "WAV": (),
    "IQ in WAV": ("--iq",),
    "raw f32": ("--raw", "f32"),
    "raw IQ u8": ("--raw", "u8", "--iq"),
}


@pytest.mark.parametrize("name", INPUTS)
def test_more_groups_than_by_bits(name: str, tmp_path: Path) -> None:
    """Of 60 groups, by `demod --soft` and `rds list --soft`; sync is the same."""
    options = INPUTS[name]
    signal = iq(mpx(SENT, RATE, snr=60), RATE, cnr=12.5, seed=3) if "--iq" in options else SIGNALS["weak"]
    data, path = stored(signal, dict(zip(options, options[1:])).get("--raw", "s16"), 4.0), tmp_path / "it"
    path.write_bytes(data if "--raw" in options else wav(data, "s16", RATE, 1 + ("--iq" in options)))
    words_ = ("demod", *options, *(["--rate", RATE] if "--raw" in options else []), path)
    found = []
    for kind, how in ((["--soft"], ["--soft"]), ([], ["--burst", "2"])):
        text = rds("list", *how, data=monitor(*words_, *kind).stdout).decode()
        groups = [line.split(",")[4:] for line in text.splitlines() if line.startswith("group,")]
        read = {
            tuple(int(cell.split(":")[1][:4], 16) for cell in cells) for cells in groups if is_whole(cells)
        }
        found.append(len(read & {*words(5, 60)}))
    assert found[0] >= max(45, found[1] + 5)


def is_whole(cells: List[str]) -> bool:
    return all(":" in cell for cell in cells)


def test_symbols_of_stations(tmp_path: Path) -> None:
    """Of each a file, or lines of JSON."""
    offsets, rate = (-200e3, 150e3), 600000
    sent = [Sent(offset, encode(words(number, 40))) for number, offset in enumerate(offsets)]
    signals = [alone(one, 3.0, number) for number, one in enumerate(sent)]
    data = stored(captured(sent, rate, 3.0, -40, signals), "s16")
    command = (
        "demod",
        "--raw",
        "s16",
        "--rate",
        rate,
        "--stations",
        "--centre",
        "98M",
        "--at",
        "97.8M,98.15M",
    )
    assert monitor(*command, "--soft", "--output", tmp_path, data=data).returncode == 0
    lines = [json.loads(line) for line in monitor(*command, "--soft", data=data).stdout.splitlines()]
    assert monitor(*command, "--unpacked", "--output", tmp_path, data=data).returncode == 0
    for name in ("97.8M", "98.15M"):
        own = [line["symbols"] for line in lines if line["frequency"] == float(name[:-1]) * 1e6]
        symbols = (tmp_path / f"{name}.soft").read_bytes()
        assert bytes.fromhex("".join(own)) == symbols and len(symbols) > 3000
        bits = numpy.fromfile(tmp_path / f"{name}.bin", "u1")
        assert (bits_between(signed(numpy.frombuffer(symbols, "u1"))) == bits).all()
