"""Values at each bound, which are taken, and just past it, which are refused."""

from __future__ import annotations

import argparse
import io
import math
from fractions import Fraction
from types import SimpleNamespace
from typing import Any, Callable, List, Tuple

import numpy
import pytest

from modulator import Array, baseband, chips_of
from network import stations
from rds_monitor.db.standing import standing
from rds_monitor.measures.errors import interval_of
from rds_monitor.measures.measure import count_of
from rds_monitor.measures.outages import share_of
from rds_monitor.page.line import CUT, join
from rds_monitor.rows.clock import number_of, rate_of, start_of
from rds_monitor.rows.inputs import bits_of, gaps_of, input_options, margin_of, rules_of
from rds_monitor.rows.items import Fault, Misuse
from rds_monitor.signal import samples
from rds_monitor.signal.demod import judge_options, options_demod
from rds_monitor.signal.filters import Bands, Passband, at_least, fast_size
from rds_monitor.signal.found import is_inside, spectrum_of, weights_of
from rds_monitor.signal.jumps import Jumps
from rds_monitor.signal.receiver import Quality, Strength
from rds_monitor.signal.samples import checked
from rds_monitor.signal.symbols import Symbols
from rds_monitor.watch.check import Reception, limits_of, percent_of, seen_in
from rds_monitor.watch.table import table_of
from rds_monitor.watch.verdict import CRITICAL, OK, WARNING, Limits, Seen, Verdict

# Of an option: values that are taken, and values that are not.
OPTIONS: List[Tuple[Callable[[str], Any], str, str]] = [
    (percent_of, "0 100", "100.000000001 -0"),
    (share_of, "0 100", "100.000000001 -1"),
    (number_of, "0 999999999999.999999999", "1000000000000 0.0000000001 -1"),
    (interval_of, "1 999999999999", "0 0.999999999"),
    (count_of, "0 1000000000000", "-1 1.0"),
    (rate_of, "1068.01 1187.5 1306.99", "1068 1307 0 -1187.5"),
    (
        start_of,
        "1970-01-01T00:00:00Z 9990-12-31T23:59:59.999999Z",
        "1969-12-31T23:59:59Z 9991-01-01T00:00:00Z 2026-02-29T00:00:00Z",
    ),
    (bits_of, "0 68719476736", "68719476737 -1"),
    (margin_of, "1 127", "0 128 -1"),
    (gaps_of, "0-999999999999 0-1,1-2", "0-1000000000000 -1-2"),
]


@pytest.mark.parametrize("judge, taken, refused", OPTIONS, ids=[of[0].__name__ for of in OPTIONS])
def test_options(judge: Callable[[str], Any], taken: str, refused: str) -> None:
    for text in taken.split():
        judge(text)
    for text in refused.split():
        with pytest.raises(argparse.ArgumentTypeError):
            judge(text)


# By options: burst, reach, loss, the blocks of a share, and margin; or the options that do not go together.
RULES: List[Tuple[str, Any]] = [
    ("", (2, 3, 10, 0, 0)),
    ("--burst 0 --reach 8 --loss 5", (0, 8, 5, 0, 0)),
    ("--share 5", (2, 3, 5, 64, 0)),
    ("--share 5 --of 9", (2, 3, 5, 9, 0)),
    ("--soft", (2, 3, 10, 0, 32)),
    ("--soft --margin 1 --loss 9", (2, 3, 9, 0, 1)),
    ("--loss 5 --share 5", "--loss and --share"),
    ("--of 9", "--of needs --share"),
    ("--margin 9", "--margin needs --soft"),
    ("--soft --burst 2", "--burst and --soft"),
    ("--soft --hex", "--hex and --soft"),
]


@pytest.mark.parametrize("words, told", RULES)
def test_rules_of_a_decoder(words: str, told: Any) -> None:
    parser = argparse.ArgumentParser()
    input_options(parser)
    given = parser.parse_args(words.split())
    if isinstance(told, tuple):
        assert rules_of(given) == told
        return
    with pytest.raises(Misuse, match=f"^{told}"):
        rules_of(given)


# Of a key of a table: values that are taken, and values that are not, beside other keys.
IQ = ('form = "iq"', 'raw = "u8"')
KEYS = {
    "patience": ("0 999999999999.9", "-0.1 1e12", ()),
    "frequency": ("0 999999999999.9", "-0.1 1e12", ()),
    "rate": ("128000 20000000", "127999 20000001", ('form = "mpx"', 'raw = "s16"')),
    "offset": ("-2999999.5 2999999.5", "-3e6 3e6", (*IQ, "rate = 20000000")),
    "af": ("[0.11] [107.9]", "[0.1] [108]", ()),
}


@pytest.mark.parametrize("key", KEYS)
def test_keys_of_a_table(key: str) -> None:
    taken, refused, beside = KEYS[key]
    lines = lambda value: stations('name = "A"', 'command = ["a"]', *beside, f"{key} = {value}")
    for value in taken.split():
        table_of(lines(value))
    for value in refused.split():
        with pytest.raises(Fault):
            table_of(lines(value))


@pytest.mark.parametrize(
    "limits, fits", [((50, 50, 10, 10), True), ((49.9, 50, 0, 0), False), ((0, 0, 10.1, 10), False)]
)
def test_limits_may_be_equal(limits: Tuple[float, ...], fits: bool) -> None:
    given = argparse.Namespace(**dict(zip("wcWC", limits)))
    if fits:
        assert limits_of(given) == limits
        return
    with pytest.raises(Fault, match="no warning would come"):
        limits_of(given)


# How long ago a file was written to, and of 20 s with whole groups how many per cent are valid.
@pytest.mark.parametrize("quiet, valid", [(0, 100), (4.999, 100), (5, 80), (20, 50)])
def test_a_pause_of_five_seconds_is_no_reception(quiet: float, valid: float) -> None:
    reception = Reception(1187.5, False)
    reception.end = reception.whole_until = 23750
    reception.valid = 23750 // 26
    told = seen_in(reception, quiet, 1187.5)
    assert told.valid == pytest.approx(valid, abs=0.1) and told.age == pytest.approx(quiet, abs=0.001)


# Per cent of valid blocks, and the seconds since the last whole group.
@pytest.mark.parametrize(
    "valid, age, status",
    [
        (90, 10, OK),
        (89.99, 10, WARNING),
        (50, 0, WARNING),
        (49.99, 0, CRITICAL),
        (100, 10.01, WARNING),
        (100, 60, WARNING),
        (100, 60.01, CRITICAL),
    ],
)
def test_a_verdict_at_its_limits(valid: float, age: float, status: int) -> None:
    verdict = Verdict()
    verdict.judge(Seen(valid, 0.0, age, None, []), Limits(90, 50, 10, 60), None, [])
    assert verdict.status == status


@pytest.mark.parametrize(
    "silent, bad, state",
    [(10, 50, "good"), (10.01, 0, "no sync"), (0, 50.01, "bad"), (None, 0, "no sync"), (0, None, "good")],
)
def test_a_standing_at_its_bounds(silent: Any, bad: Any, state: str) -> None:
    assert standing(None, silent, bad, {}).state == state


def has_small_factors(number: int) -> bool:
    """Whether it divides a power of 30."""
    return 30**20 % number == 0


@pytest.mark.parametrize("number", [0.5, 1, 2, 3, 64, 64.1, 448, 449, 1024, 1025, 12288.5])
def test_sizes_of_transforms(number: float) -> None:
    """A power of two; and 64 times a product of 2, 3 and 5."""
    assert at_least(number) == min(1 << k for k in range(20) if 1 << k >= number)
    assert fast_size(number) == min(
        64 * k for k in range(1, 999) if has_small_factors(k) and 64 * k >= number
    )


@pytest.mark.parametrize(
    "is_real, tone, centre", [(1, 57500, 57000), (1, 56e3, 57010), (0, -3e4, -31e3), (0, 93e3, 95e3)]
)
def test_a_tone_in_a_band(is_real: int, tone: float, centre: float) -> None:
    """It is shifted to 0 Hz, as strong as the filter says. A band of complex samples is around a bin, and may go on from the last one to
    the first one."""
    gain = lambda frequencies: numpy.maximum(0, 1 - abs(frequencies) / 5000)
    band = Passband(Fraction(192000), centre, 5000, gain, 14250, 8192, bool(is_real))
    wave = numpy.exp(2j * math.pi * tone / 192000 * numpy.arange(60000)).astype("c8")
    signal, bands = numpy.stack([wave.real if is_real else wave, 0 * wave.real]), Bands([band], 2)
    parts = [*map(bands.push, numpy.split(signal, 3, axis=1)), bands.finish()]
    found = numpy.concatenate([rows for (rows,) in parts], axis=1)
    assert (band.rate_out, found.shape) == (15000, (2, 4688)) and not found[1].any()
    beside = tone - float(band.centre)
    still = found[0] * numpy.exp(-2j * math.pi * beside / 15000 * numpy.arange(4688))
    strength, inner = 1 - abs(beside) / 5000, still[200:-200]
    assert inner == pytest.approx(inner[0], abs=0.02)
    assert abs(inner) == pytest.approx(strength, abs=0.02) and 0.3 < abs(still[0]) / strength < 0.7
    assert abs(band.centre - centre) <= (0 if is_real else 192000 / 8192 / 2)


def test_numbers_that_are_samples() -> None:
    taken = numpy.array([0, 9.9e11, -9.9e11])
    assert [part.tolist() for part in checked(taken, 5)] == [taken.tolist()]
    with pytest.raises(Fault, match="^sample 9 is -1000000000000.0: "):
        list(checked(numpy.array([*taken, -1e12]), 5))
    with pytest.raises(Fault, match="^sample 8 is 2000000000000.0: "):
        list(checked(numpy.array([0, 1, 2e12j]), 5))


def test_the_place_of_a_number_that_is_no_sample(monkeypatch: pytest.MonkeyPatch) -> None:
    """It counts the samples of all blocks."""
    monkeypatch.setattr(samples, "FRAMES_OF_FILE", 4)
    data = io.BytesIO(numpy.array([*range(9), math.inf], "<f4").tobytes())
    with pytest.raises(Fault, match="^sample 10 is inf: "):
        list(samples.StoredSamples(data, samples.Layout(192000, 1, "f32"), (0,)).blocks())


@pytest.mark.parametrize("is_file, sizes", [(True, [4, 4, 1]), (False, [2, 2, 2, 2, 1])])
def test_blocks_of_a_pipe_are_shorter(
    is_file: bool, sizes: List[int], monkeypatch: pytest.MonkeyPatch
) -> None:
    """So that it is heard without delay."""
    monkeypatch.setattr(samples, "FRAMES_OF_FILE", 4)
    monkeypatch.setattr(samples, "FRAMES_PER_BLOCK", 2)
    data = io.BytesIO(bytes(18))
    stream: Any = SimpleNamespace(read=data.read, seekable=lambda: is_file)
    source = samples.StoredSamples(stream, samples.Layout(192000, 1, "s16"), (0,))
    assert [*map(len, source.blocks())] == sizes


@pytest.mark.parametrize("wanted, count", [(5, 2), (6, 2), (7, 3), (99, 4)])
def test_how_many_blocks_a_beginning_has(wanted: int, count: int) -> None:
    assert len(samples.beginning_of(iter([numpy.zeros(3)] * 4), wanted)) == count


# Words of `demod`, and the fault.
MISUSES = [
    ("--at 98M", "--at, --equalise and --centre are for --stations"),
    ("--equalise 98M", "--at, --equalise and --centre are for --stations"),
    ("--iq --centre 0", "--at, --equalise and --centre are for --stations"),
    ("--no-equaliser", "--offset and --no-equaliser are for --iq"),
    ("--stations --no-equaliser", "--offset and --no-equaliser are for one station"),
    ("--stations --offset 1", "--offset and --no-equaliser are for one station"),
    ("--stations --unpacked", "--unpacked needs a folder"),
    ("--iq --channel 1", "--channel is for MPX"),
    ("--stations --unpacked --output it --equalise 98M --at 98M --centre 0 --every 0.1", ""),
    ("--iq --no-equaliser --offset 1 --soft", ""),
    ("--channel 2 --unpacked", ""),
]


@pytest.mark.parametrize("words, fault", MISUSES)
def test_options_of_demod(words: str, fault: str) -> None:
    parser = argparse.ArgumentParser()
    options_demod(parser)
    given = parser.parse_args(words.split())
    if not fault:
        judge_options(given)
        assert given.iq == ("--stations" in words or "--iq" in words)
        return
    with pytest.raises(Misuse, match=f"^{fault}"):
        judge_options(given)


def test_weights_of_bins() -> None:
    """As many on both sides of the frequency."""
    assert weights_of(2) == pytest.approx([0.25, 0.75, 1, 0.75, 0.25])


def test_the_power_of_a_spectrum() -> None:
    """All bins together have the power of the signal, by that of full scale. A station's channel may end with the band."""
    power, offsets = spectrum_of(3 * numpy.exp(0.4j * math.pi * numpy.arange(8256)), 100000, 6.0)
    assert power.sum() == pytest.approx(0.25) and abs(offsets[power.argmax()] - 20000) <= 1562.5 / 2
    assert offsets == pytest.approx(1562.5 * numpy.arange(-32, 32))
    assert [is_inside(offset, 600000) for offset in (-200e3, 200e3, 200.1e3)] == [True, True, False]


def test_the_report_of_symbols() -> None:
    """The last 520 of 620 segments are locked. The signal as it came is twice as strong as the one that was decided."""
    values, coherence = numpy.tile([3 + 0.5j, -3 + 0.5j], 2480), numpy.repeat([0.29, 0.3], [100, 520])
    found = Symbols(
        values, numpy.full(620, 2.512), coherence, numpy.full(620, 3.04e-5), numpy.full(620, 0.05)
    )
    quality = Quality(0.25)
    quality.add(found, found._replace(symbols=2 * found.symbols))
    quality.pilot = [0.5, 1.5]
    snr = round(10 * math.log10((9 - 0.25) / (2 * 0.25 * 4800 / 1187.5)), 1)
    assert [quality.recent(), quality.recent()] == [Strength(None, snr), Strength(None, None)]
    # A symbol has two chips, each with the amplitude of a carrier.
    level = 20 * math.log10(math.sqrt(4 * (9 - 0.25)) / 2)
    told: Any = {"seconds": 4.2, "locked": 0.8387, "received": 0.0, "first_lock_s": 0.7, "snr_db": snr}
    told |= {"carrier_offset_hz": 2.51, "clock_offset_ppm": 30.4, "rds_khz": None, "level_dbfs": None}
    told |= {"rds_dbfs": round(level + 20 * math.log10(4), 1), "rds_to_pilot_db": round(level, 1)}
    assert quality.report() == told


@pytest.mark.parametrize("middle", [range(211, 241), range(160, 190)])
@pytest.mark.parametrize("more, count", [(519, 0), (521, 3)])
def test_when_there_is_a_pilot(middle: range, more: int, count: int) -> None:
    """Each eighth spectrum has one if its 13 bins have more than 20 times the noise. The noise is the median of 30 bins on each side, from
    the 11th on; those of one side are stronger here."""
    power = numpy.full((2, 2000), 9.0)
    power[1, 160:241] = 1
    power[1, [*middle]] = 3
    power[1, 190:211] = numpy.where(abs(numpy.arange(-10, 11)) > 6, 99, 2)
    power[1, 206 if middle[0] > 200 else 194] += more
    quality = Quality(1.0, pilot=[5.0] * 64)
    for _ in range(17):
        quality.watch(numpy.sqrt(power), 95.0, 512)
    assert quality.pilot == pytest.approx([5.0] * (64 - count) + [more * (2 / 512) ** 2] * count)


def test_stretches_a_tenth_apart_are_one() -> None:
    found = [(-5.0, 0.0, "ALPHA")]
    join(found, (CUT, 2.0, "ALPHA"), CUT)
    join(found, (2.125, 3.0, "ALPHA"), CUT)
    assert found == [(-5.0, 2.0, "ALPHA"), (2.125, 3.0, "ALPHA")]


def lengths_between_jumps(signal: Array) -> List[int]:
    """A signal of 14,250 samples per second is given on as it came."""
    jumps, lengths, parts = Jumps(14250.0, len(signal)), [0], []
    for given in [*map(jumps.push, numpy.array_split(signal, 6, axis=1)), jumps.finish()]:
        lengths[-1:] = [lengths[-1] + given[0].shape[1], *(part.shape[1] for part in given[1:])]
        parts += given
    assert (numpy.concatenate(parts, axis=1) == signal).all()
    return lengths


# The degrees by which a carrier's phase jumps, how fast it turns, and the samples before the jump, or None if it is too small.
JUMPS = [(15, 0, None), (25, 0, 14250), (45, -25, 14297), (35, 25, 27756), (170, 0, None)]


@pytest.mark.parametrize("degrees, hertz, place", JUMPS)
def test_jumps_of_a_carrier(degrees: float, hertz: float, place: Any) -> None:
    """Their places are known to the sample, some 50 ms before the end as well. Nearly half a turn is no jump, since symbols have either sign."""
    signal = numpy.exp(2j * math.pi * hertz / 14250 * numpy.arange(28500))
    signal[place or 14250 :] *= numpy.exp(1j * math.radians(degrees))
    found = lengths_between_jumps(numpy.stack([signal, 0 * signal]))
    assert found == ([place, 28500 - place] if place else [28500])


@pytest.mark.parametrize("count, jumps", [(1, 0), (6, 1), (7, 1)])
def test_samples_that_were_dropped(count: int, jumps: int) -> None:
    """A symbol has twelve samples. The place is known to a symbol."""
    chips = chips_of(numpy.random.default_rng(1).integers(0, 2, 3600))
    signal = numpy.delete(baseband(chips, numpy.arange(42000) / 6), slice(20000, 20000 + count))
    place, *rest = lengths_between_jumps(signal[None] + 0j)
    assert len(rest) == jumps and (not jumps or abs(place - 20000) <= 12)
