"""From MPX and IQ to groups: signals of modulator.py, received by `rds-monitor demod`."""

from __future__ import annotations

import argparse
import io
import json
import os
import re
import signal as signals
import struct
import subprocess
import sys
from pathlib import Path
from types import SimpleNamespace
from typing import Any, Dict, List, Tuple

import measure_demod
import numpy
import pytest
from conftest import TOP, encode, monitor, rds
from hypothesis import given, settings
from hypothesis import strategies as st
from made import on_a_terminal, peak_memory, run
from measure_demod import TABLES, Words, bits_of, right, whole_groups
from modulator import Array, dropped, iq, mpx, stored, wav, words

from rds_monitor.signal.demod import no_rds, receive
from rds_monitor.signal.outputs import QualityLine, sentence
from rds_monitor.signal.pack import BitWriter
from rds_monitor.signal.rates import BLOCK, COMMON, _prominence
from rds_monitor.capture.stations import SECONDS
from rds_monitor.signal.receiver import CARRIER_HZ, CHANNEL_HZ, RATES, Capture
from rds_monitor.signal.soft import UNIT
from rds_monitor.rows.items import Fault
from rds_monitor.signal import samples
from rds_monitor.signal.samples import Layout, StoredSamples, open_samples, wav_layout

GROUPS = words(3, 24)  # 2.1 seconds
SENT = encode(GROUPS)
RATE = 171000


def received(signal: Array, rate: int = RATE, **options: Any) -> Tuple[List[Words], Any]:
    return measure_demod.received(signal, rate, **options)


# ---- the receiver


@pytest.mark.parametrize("side", [-1, 1])
def test_how_high_a_pilot_is(side: int) -> None:
    """By the median of the 32 bins on each side, of which those next to it are left out."""
    power, middle = numpy.ones(BLOCK // 2 + 1), round(19000 / 192000 * BLOCK)
    power[middle - 8 : middle + 9] = 99
    power[middle - 2 : middle + 3] = [0, 2, 11, 3, 0]
    power[sorted(range(middle + 9 * side, middle + 41 * side, side))] = 3
    assert _prominence(power, 192000) == pytest.approx(11 / 2)


def test_where_a_pilot_may_be() -> None:
    """With 40 bins before it, and 40 from it on."""
    heights = [
        _prominence(numpy.ones(size), 19000 / place * BLOCK) for place, size in ((39, 99), (40, 80), (40, 81))
    ]
    assert heights == [0, 0, pytest.approx(1)]


def test_usual_rates_are_round() -> None:
    """All but the lowest one of the upper range of an RTL2832U."""
    assert [rate for rate in COMMON if rate % 100] == [900001] and [*COMMON] == sorted({*COMMON})


# Signals; the bit at the flip is wrong, and corrected.
SIGNALS = """
snr=30; snr=10; snr=20 carrier_offset=12; snr=20 carrier_offset=-25; snr=20 phase=90; snr=20 clock_offset=100;
snr=20 clock_offset=-100; snr=20 clock_offset=1000; snr=20 stereo=0; snr=20 flip=1"""


@pytest.mark.parametrize("options", re.split(r";\s", SIGNALS.strip()))
def test_all_groups_but_the_first(options: str) -> None:
    values = {name: float(value) for name, value in (word.split("=") for word in options.split())}
    assert received(mpx(SENT, RATE, **values))[0] == GROUPS[1:]


@pytest.mark.parametrize("snr,least", [(1, 21), (-2, 10)])
def test_weak_signals(snr: float, least: int) -> None:
    assert right(GROUPS, mpx(SENT, RATE, snr=snr), RATE) >= least


@pytest.mark.parametrize("rate", [128000, 192000, 250001])
def test_rates(rate: int) -> None:
    assert received(mpx(SENT, rate), rate)[0] == GROUPS[1:]


@pytest.mark.parametrize("rate", [171000, 192000, 250001])
def test_no_bit_is_wrong_without_noise(rate: int) -> None:
    sent = numpy.unpackbits(numpy.frombuffer(SENT, "u1"))
    bits = bits_of(Capture(rate), mpx(SENT, rate, snr=40))[0]
    # The first bit has none before it; the last ones may be cut.
    assert min(int((bits[at : at + 2400] != sent[10:2410]).sum()) for at in range(4, 16)) == 0


def test_blocks_of_any_length() -> None:
    signal = mpx(SENT, RATE, snr=3)
    whole = received(signal, block=signal.size)[0]
    assert received(signal, block=4001)[0] == whole == received(signal, block=100000)[0]


def test_blocks_of_any_length_when_the_signal_fades() -> None:
    """A file is read in longer blocks than a pipe. Two seconds of noise in each four."""
    signal = mpx(encode(words(3, 150)), RATE, snr=5, clock_offset=60, carrier_offset=2)
    noise = 0.35 * numpy.random.default_rng(3).standard_normal(signal.size)
    signal = numpy.where(numpy.arange(signal.size) / RATE % 4 < 2, signal, noise)
    one, *others = (bits_of(Capture(RATE), signal, block)[0] for block in (65536, 262144, signal.size))
    assert all(numpy.array_equal(one, other) for other in others)


def test_groups_on_both_sides_of_silence_and_of_noise() -> None:
    signal = mpx(SENT, RATE)
    noise = numpy.random.default_rng(1).standard_normal(3 * RATE)
    for between in (numpy.zeros(RATE // 2), noise):
        found = received(numpy.concatenate([signal, between, signal]))[0]
        assert [group for group in found if group in GROUPS] == GROUPS[1:-1] + found[22:-23] + GROUPS[1:]
        assert len(found) <= 2 * len(GROUPS) + 1


def test_nearly_as_many_bits_as_were_sent_and_they_keep_time() -> None:
    signal = mpx(SENT, RATE)
    for gap in (numpy.zeros(10 * RATE), numpy.random.default_rng(2).standard_normal(10 * RATE)):
        whole = numpy.concatenate([signal, gap, signal])
        (bits,), sent = bits_of(Capture(RATE), whole), whole.size / RATE * 1187.5
        assert abs(bits.size - sent) < 5
        lines = rds("list", data=numpy.packbits(bits).tobytes()).decode().splitlines()
        places = [int(line.split(",")[1]) for line in lines if line.startswith("group,")]
        # The clock goes on through what is no signal.
        assert abs(places[-1] - (sent - 104)) < 110


# ---- jumps


FIVE_SECONDS = words(3, 60)


@pytest.mark.parametrize("snr,lost", [(30, 1), (5, 2), (-1, 12)])
@pytest.mark.parametrize("rate", [171000, 250000])
def test_the_pilot_jumps_by_30_degrees_each_quarter_of_a_second(rate: int, snr: float, lost: int) -> None:
    signal = mpx(encode(FIVE_SECONDS), rate, snr=snr, jump=30)
    assert right(FIVE_SECONDS, signal, rate) >= 59 - lost


@pytest.mark.parametrize("snr,lost", [(30, 1), (0, 6)])
@pytest.mark.parametrize("rate,count", [(171000, 100), (192000, 100), (228000, 100), (250000, 60)])
def test_dropped_samples(rate: int, count: int, snr: float, lost: int) -> None:
    """Half a chip to 1.4 chips each second: bits go on being counted, so that sync is kept."""
    signal = dropped(mpx(encode(FIVE_SECONDS), rate, snr=snr), count, rate)
    assert right(FIVE_SECONDS, signal, rate) >= 59 - lost


@pytest.mark.parametrize("jump", [0, 30])
def test_iq_with_jumps_and_dropped_samples(jump: float) -> None:
    rate = 240000
    signal = iq(mpx(encode(FIVE_SECONDS), rate, snr=60, jump=jump), rate, cnr=30)
    assert right(FIVE_SECONDS, dropped(signal, 100, rate), rate, equalise=True) >= 57


ROWS = [
    ("noise", "−2 dB"),
    ("jumps", "100 samples dropped per second"),
    ("multipath", "10 µs, −1 dB | 30 dB"),
]


@pytest.mark.parametrize("name,case", ROWS)
def test_a_row_of_the_page(name: str, case: str) -> None:
    """The tables of docs/ACCURACY.md are those that measure_demod.py prints, but for what other sums may change."""
    lines = (TOP / "docs" / "ACCURACY.md").read_text().splitlines()
    (row,) = (line for line in lines if line.startswith(f"| {case} |"))
    stated = [float(cell) for cell in row[len(case) + 4 : -1].split("|")]
    measured = TABLES[name].row(1, *TABLES[name].cases[case])
    assert stated == pytest.approx(measured, rel=0.015) and len(stated) == len(measured)


# ---- what is said of the signal


@pytest.mark.parametrize("snr", [20, 3, -2])
def test_report(snr: float) -> None:
    told = received(mpx(encode(words(4, 60)), RATE, snr=snr, carrier_offset=5, clock_offset=50))[1]
    assert abs(told["snr_db"] - snr) < 0.7
    assert abs(told["carrier_offset_hz"] - 5) < 0.3
    assert abs(told["clock_offset_ppm"] - 50) < 25
    assert told["locked"] > 0.95 and told["first_lock_s"] < 0.2
    # The modulator has RDS at 0.03, and the pilot at 0.09.
    assert abs(told["rds_dbfs"] + 30.5) < 0.3
    assert abs(told["rds_to_pilot_db"] + 9.5) < 0.5
    assert told["rds_khz"] is None


NOISE = numpy.random.default_rng(3).standard_normal(6 * RATE)
TONE = numpy.sin(2 * numpy.pi * 57005 / RATE * numpy.arange(4 * RATE))


@pytest.mark.parametrize("signal", [NOISE, numpy.zeros(2 * RATE), TONE], ids=["noise", "silence", "tone"])
def test_what_is_no_rds_is_never_locked(signal: Array) -> None:
    told = received(signal)[1]
    assert told["received"] < 0.002
    assert told["locked"] == 0 and told["snr_db"] is None and told["first_lock_s"] is None


# Of what is known of MPX.
DIGITS = {"seconds": 1, "locked": 4, "received": 4, "first_lock_s": 1, "snr_db": 1, "carrier_offset_hz": 2}
DIGITS |= {"clock_offset_ppm": 1, "rds_dbfs": 1, "rds_to_pilot_db": 1}


def test_lock_of_a_part() -> None:
    told = received(numpy.concatenate([NOISE, mpx(SENT, RATE, carrier_offset=5)]))[1]
    digits = {name: len(str(value).partition(".")[2]) for name, value in told.items() if value is not None}
    assert digits == DIGITS
    assert abs(told["received"] - 2.1 / 8.1) < 0.02
    assert abs(told["first_lock_s"] - 6) < 0.5 and abs(told["locked"] - 2.1 / 8.1) < 0.05


@pytest.mark.parametrize("snr,least,most", [(20, 0.98, 1), (-3, 0.35, 0.65), (-7, 0, 0.05)])
def test_bits_in_valid_blocks(snr: float, least: float, most: float) -> None:
    """A carrier can be coherent although next to nothing is received."""
    told = received(mpx(encode(words(4, 60)), RATE, snr=snr))[1]
    assert least <= told["received"] <= most and told["locked"] > 0.3


# ---- IQ


@pytest.mark.parametrize("rate,offset", [(240000, 0), (250000, 20000), (1024000, 0), (1200000, 250000)])
def test_iq(rate: int, offset: float) -> None:
    signal = iq(mpx(encode(GROUPS[:8]), rate, snr=40), rate, cnr=40, offset=offset)
    assert received(signal, rate, offset=float(offset))[0] == GROUPS[1:8]


@pytest.mark.parametrize("loudness", [0, 0.8])
@pytest.mark.parametrize("rate,cnr", [(171000, 15), (171000, 50), (250000, 15), (250000, 30), (480000, 50)])
def test_the_deviation_is_that_sent(rate: int, cnr: float, loudness: float) -> None:
    """Within 0.2 dB, whatever the discriminator and the equaliser do to it."""
    multiplex = mpx(encode(words(4, 36)), rate, snr=60, level=1.39 / 75, loudness=loudness)
    signal = iq(multiplex, rate, cnr=cnr)
    for equalise in (False, True):
        told = received(signal, rate, equalise=equalise)[1]
        assert abs(20 * numpy.log10(told["rds_khz"] / 1.39)) < 0.2, equalise
        # The pilot has 0.09 of 75 kHz.
        assert abs(told["rds_to_pilot_db"] - 20 * numpy.log10(1.39 / 6.75)) < 0.25, equalise


@pytest.mark.parametrize("rate,count,equalise", [(480000, 30, True), (499999, 12, False)])
def test_a_stronger_neighbour_in_the_band(rate: int, count: int, equalise: bool) -> None:
    """200 kHz away, 6 dB stronger."""
    groups, others = words(5, count), words(6, count)
    signal = iq(mpx(encode(groups), rate, snr=40), rate, cnr=40)
    neighbour = iq(mpx(encode(others), rate, snr=40, seed=2), rate, offset=-200000)
    assert received(signal + 2 * neighbour, rate, equalise=equalise)[0] == groups[1:]


@pytest.fixture(scope="module")
def echo() -> Array:
    """Groups with a second path of 30 µs, at 256,000 samples per second."""
    return iq(mpx(encode(words(5, 30)), 256000, snr=40), 256000, paths=[(30, 0.7, 90, 0)], cnr=30)


def test_multipath_is_undone(echo: Array) -> None:
    plain, equalised = (right(words(5, 30), echo, 256000, equalise=value) for value in (False, True))
    assert equalised >= 24 > 10 >= plain


def test_the_equaliser_does_not_harm_a_weak_iq_signal() -> None:
    groups, rate = words(5, 40), 256000
    signal = iq(mpx(encode(groups), rate, snr=40), rate, cnr=13)
    plain, equalised = (right(groups, signal, rate, equalise=value) for value in (False, True))
    assert plain >= 20 and equalised >= 0.8 * plain


def test_a_station_after_silence_in_iq() -> None:
    rate, groups = 256000, GROUPS[:14]
    signal = iq(mpx(encode(groups), rate, snr=40), rate, cnr=40)
    for silence in (numpy.zeros(rate // 4, complex), 1e-6 * signal[: rate // 4]):
        found, _ = received(numpy.concatenate([signal, silence, signal]), rate, equalise=True)
        assert found[:12] == groups[1:13] and found[-10:] == groups[-10:]


@given(
    kind=st.sampled_from(["zeros", "noise", "huge", "square", "steps"]),
    is_iq=st.booleans(),
    seconds=st.floats(0, 0.7),
    block=st.integers(1, 100000),
    seed=st.integers(0, 99),
)
@settings(max_examples=15, deadline=None)
def test_any_samples_give_bits_in_time(kind: str, is_iq: bool, seconds: float, block: int, seed: int) -> None:
    random, size = numpy.random.default_rng(seed), int(seconds * RATE)
    signal = {
        "zeros": numpy.zeros(size),
        "noise": random.standard_normal(size),
        "huge": 9e11 * random.standard_normal(size),
        "square": numpy.sign(random.standard_normal(size)),
        "steps": numpy.arange(size) % 1000.0,
    }[kind]
    given_ = signal + 1j * signal[::-1] if is_iq else signal
    bits = bits_of(Capture(RATE, is_iq, equalised=[0.0] if is_iq else ()), given_, max(block, 1000))[0]
    assert set(bits.tolist()) <= {0, 1}
    if block >= 1000:
        assert abs(bits.size - seconds * 1187.5) < 8


# ---- the command


KHZ = f"in {CHANNEL_HZ / 1000:g} kHz"
HELP = [
    ("demod", f"the log-likelihood ratio of its sign in 1/{UNIT:g} nat"),
    (
        "demod",
        f"integers of 8 to 32 bits or floating point), in a FLAC file (needs python3-soundfile), or raw, at {RATES[0]:,} samples",
    ),
    ("demod", f"the signal-to-noise ratio ({KHZ}), and the level"),
    ("demod", f"an unmodulated {CARRIER_HZ / 1000:g} kHz carrier"),
    (
        "demod",
        "rtl_fm -M fm -l 0 -A std -p 0 -s 171k -F 9 -f 98.1M | rds-monitor demod --raw s16 --rate 171000 | rds follow",
    ),
    ("demod", "rtl_sdr -f 98.1M -s 240k - | rds-monitor demod --iq --raw u8 --rate 240000 >"),
    ("demod", "The exit status is 1 if there was no RDS."),
    ("stations", f"signal-to-noise ratio of RDS ({KHZ}), PI and PS"),
    ("stations", "The exit status is 1 if no station was found."),
    (
        "stations",
        f"-f 98M -s 2.4M -n {2.4 * SECONDS:g}M - | rds-monitor stations --raw u8 --rate 2400000 --centre 98M",
    ),
    ("form", "1922 unpacked bits, bytes 0 and 1 rds-monitor pack --from bytes unknown.dat"),
    ("form", "The exit status is 1 if no format gives two groups."),
    ("batch", "(fewer than two complete groups); then the exit status is 1."),
]


@pytest.mark.parametrize("command,text", HELP)
def test_numbers_of_the_help(command: str, text: str) -> None:
    assert text in " ".join(run(command, "--help").out.split())


S16 = ("--raw", "s16", "--rate", 192000)


def demodulated(*arguments: Any, data: bytes = b"") -> List[Words]:
    done = monitor("demod", *arguments, data=data)
    assert done.returncode == 0, done.stderr
    return whole_groups(done.stdout)


@pytest.fixture(scope="module")
def signal() -> Array:
    return mpx(SENT, 192000)


@pytest.fixture
def file(tmp_path: Any) -> Any:
    def write(data: bytes, name: str = "mpx") -> str:
        (tmp_path / name).write_bytes(data)
        return str(tmp_path / name)

    return write


LONG_CHUNK = b"LIST" + struct.pack("<I", 300001) + bytes(300002)
WAVES: Dict[str, Dict[str, Any]] = {
    **dict.fromkeys(("s16", "s24", "s32", "f32", "f64"), {}),
    # Half a sample more would be a fault.
    "s16 long form": {"long_form": True},
    "s16 long chunk": {"more": LONG_CHUNK},
}


@pytest.mark.parametrize("which", WAVES)
def test_wav(which: str, signal: Array, file: Any) -> None:
    form, is_long = which[:3], "long_form" in WAVES[which]
    data = wav(stored(signal, form), form, 192000, **WAVES[which]) + b"LIST." * is_long
    assert demodulated(file(data)) == GROUPS[1:]


def test_the_least_of_a_header() -> None:
    """The first 26 bytes of a format, and 16 of the lengths. Both names of the first chunk have to be right."""
    described = struct.pack("<HHIIHHHHIH", 0xFFFE, 1, 192000, 384000, 2, 16, 22, 16, 0, 1)
    parts = (b"ds64", struct.pack("<QQ", 0, 10)), (b"fmt ", described)
    chunks = b"".join(name + struct.pack("<I", len(body)) + body for name, body in parts)
    chunks += b"data" + b"\xff" * 4
    read = wav_layout(io.BytesIO(b"RF64" + bytes(4) + b"WAVE" + chunks))
    assert read == Layout(192000, 1, "s16", 10)
    for one, other in ((b"RIFX", b"WAVE"), (b"RIFF", b"AVI ")):
        with pytest.raises(Fault, match="neither WAV nor FLAC"):
            wav_layout(io.BytesIO(one + bytes(4) + other + chunks))


@pytest.mark.parametrize("written, length", [(0, None), (1, 1), (0xFFFFFFFF, None)])
def test_lengths_that_mean_none(written: int, length: Any) -> None:
    header = wav(b"", "s16", 192000)[:40]
    assert wav_layout(io.BytesIO(header + struct.pack("<I", written))).length == length


@pytest.mark.parametrize("form", ["u8", "s16", "s24", "s32", "f32", "f64"])
def test_samples_of_a_file(form: str, file: Any) -> None:
    """Longer than a block, with both ends of the scale, to a step of the form."""
    values = numpy.append(numpy.random.default_rng(3).uniform(-1, 1, 400_000), [-1, 0, 1])
    path = file(wav(stored(values, form, 1.0), form, 192000))
    source = open_samples(path, raw=None, rate=None, channel=None, is_iq=False)
    read = numpy.concatenate([*source.blocks()]) / source.full_scale
    step = 2.0 ** -(24 if form[0] == "f" else int(form[1:]) - 1)
    assert len(read) == len(values) and abs(read - values).max() <= 2 * step


def test_the_first_number_that_no_signal_has(monkeypatch: pytest.MonkeyPatch) -> None:
    """In the second block of two samples. Next below 10**12 is a number of a signal."""
    monkeypatch.setattr(samples, "FRAMES_OF_FILE", 2)
    data = numpy.array([0, 1, -numpy.nextafter(1e12, 0), 1e12]).tobytes()
    source = StoredSamples(io.BytesIO(data), Layout(192000, 1, "f64"), (0,))
    with pytest.raises(Fault, match="sample 4 is 1000000000000.0: no signal has it"):
        [*source.blocks()]


@pytest.mark.parametrize("form", ["s16", "f32", "u8"])
def test_raw_samples_from_a_pipe(form: str, signal: Array) -> None:
    assert demodulated("--raw", form, "--rate", 192000, data=stored(signal, form)) == GROUPS[1:]


@pytest.fixture(scope="module")
def radio() -> Array:
    return iq(mpx(encode(GROUPS[:12]), 256000, snr=40), 256000, cnr=40)


@pytest.mark.parametrize("form", ["u8", "s16", "f32"])
def test_raw_iq(form: str, radio: Array) -> None:
    data = stored(radio, form)
    assert demodulated("--raw", form, "--iq", "--rate", 256000, data=data) == GROUPS[1:12]


def test_iq_beside_the_centre() -> None:
    data = stored(iq(mpx(encode(GROUPS[:12]), 256000, snr=40), 256000, cnr=40, offset=60000.0), "f32")
    words_ = ("--raw", "f32", "--iq", "--rate", 256000)
    assert demodulated(*words_, "--offset", 60000, data=data) == GROUPS[1:12]
    assert whole_groups(monitor("demod", *words_, "--offset", -60000, data=data).stdout) == []


def test_the_equaliser_is_on_by_default(echo: Array) -> None:
    command = ("--raw", "f32", "--iq", "--rate", 256000)
    found = (demodulated(*command, *more, data=stored(echo, "f32")) for more in (["--no-equaliser"], []))
    plain, equalised = (len(set(groups) & set(words(5, 30))) for groups in found)
    assert equalised >= 24 > 10 >= plain


TOLD = {"seconds": 8.1, "received": 0.262, "locked": 0.259, "first_lock_s": 6.0, "snr_db": 20.5}
TOLD |= {"carrier_offset_hz": -3.2, "clock_offset_ppm": 0.0}
SAID = "8.1 s, 26.2 % of its bits in valid blocks; coherent for 25.9 % of it, from 6.0 s on; signal to noise 20.5 dB; carrier -3.2 Hz"
LEVELS = {"rds_khz": 2.25, "rds_to_pilot_db": -9.5, "rds_dbfs": -30.5}


@pytest.mark.parametrize(
    "known,end",
    [
        ("rds_khz rds_to_pilot_db", "; deviation 2.25 kHz"),
        ("rds_to_pilot_db rds_dbfs", "; level -9.5 dB relative to the pilot"),
        ("rds_dbfs", "; level -30.5 dBFS"),
        # A signal that is coherent only when it is equalised.
        ("", ""),
    ],
)
def test_the_first_level_that_is_known_is_told(known: str, end: str) -> None:
    levels = {name: value if name in known.split() else None for name, value in LEVELS.items()}
    assert sentence({**TOLD, **levels}) == f"{SAID}, clock +0.0 ppm{end}"


@pytest.mark.parametrize("form,level", [("s16", -40.0), ("f32", -30.5), ("u8", -40.0)])
def test_the_level_is_that_of_the_form(form: str, level: float) -> None:
    """The modulator has RDS at 0.03 of full scale, of which integers have a third."""
    data = stored(mpx(encode(words(4, 40)), 192000, snr=30), form)
    done = monitor("demod", "--raw", form, "--rate", 192000, "--json", data=data)
    assert abs(json.loads(done.stderr.splitlines()[-1])["rds_dbfs"] - level) < 0.6


def test_a_terminal_has_one_line_that_is_overwritten(signal: Array, tmp_path: Any) -> None:
    """Of five looks at 0, 0.3, 0.6, 1.2 and 1.5 s two are later than half a second after the last line, which is told 0.3 s later."""
    (tmp_path / "it").write_bytes(stored(signal, "s16") * 3)
    code = (
        "import itertools, sys; from rds_monitor import cli; from rds_monitor.signal import outputs\n"
        "clock = itertools.count(0, 0.3)\noutputs.time.monotonic = lambda: next(clock)\nsys.exit(cli.main(sys.argv[1:]))"
    )
    options = ("--raw", "s16", "--rate", "192000", "--output", "/dev/null")
    said = on_a_terminal("-c", code, "demod", *options, str(tmp_path / "it"))
    lines = said.split(b"\r")
    assert len(lines[1:-2]) == 2 and said.count(b"\n") == 1
    assert all(line.endswith(b"\x1b[K") for line in lines[1:-2])
    assert b"rds-monitor demod: " in said and b" in valid blocks" in lines[2]


def test_iq_in_wav(file: Any, radio: Array) -> None:
    path = file(wav(stored(radio, "s16"), "s16", 256000, channels=2))
    assert demodulated("--iq", path) == GROUPS[1:12]
    assert b"2 channels" in monitor("demod", path).stderr


def test_flac(signal: Array, tmp_path: Any) -> None:
    soundfile = pytest.importorskip("soundfile")
    soundfile.write(tmp_path / "mpx.flac", signal / 3, 192000)
    assert demodulated(tmp_path / "mpx.flac") == GROUPS[1:]


def test_flac_of_whole_blocks(signal: Array, tmp_path: Any) -> None:
    """No block of it is empty."""
    soundfile = pytest.importorskip("soundfile")
    whole = numpy.resize(signal, 3 * samples.FRAMES_PER_BLOCK)
    soundfile.write(tmp_path / "it.flac", whole / 3, 192000)
    source = open_samples(str(tmp_path / "it.flac"), raw=None, rate=None, channel=None, is_iq=False)
    assert [block.size for block in source.blocks()] == 3 * [samples.FRAMES_PER_BLOCK]


def test_flac_that_is_cut_off(signal: Array, tmp_path: Any) -> None:
    """What is there is read, then there is a fault, as of WAV."""
    soundfile = pytest.importorskip("soundfile")
    soundfile.write(tmp_path / "whole.flac", signal / 3, 192000)
    (tmp_path / "cut.flac").write_bytes((tmp_path / "whole.flac").read_bytes()[:-100_000])
    whole, cut = (monitor("demod", tmp_path / f"{name}.flac") for name in ("whole", "cut"))
    assert (
        cut.returncode == 1
        and b"the file is cut off: it has " in cut.stderr
        and b"Traceback" not in cut.stderr
    )
    assert len(cut.stdout) > 0.7 * len(whole.stdout) and whole.stdout.startswith(cut.stdout[:-12])


def test_flac_that_does_not_say_how_long_it_is(signal: Array, tmp_path: Any) -> None:
    """As of a pipe: the number of samples, the last 36 bits before the checksum of the header, is 0."""
    soundfile = pytest.importorskip("soundfile")
    soundfile.write(tmp_path / "mpx.flac", signal / 3, 192000)
    data = bytearray((tmp_path / "mpx.flac").read_bytes())
    data[21:26] = bytes([data[21] & 0xF0, 0, 0, 0, 0])
    (tmp_path / "mpx.flac").write_bytes(data)
    assert demodulated(tmp_path / "mpx.flac") == GROUPS[1:]


def test_wav_of_sox_does_not_say_how_long_it_is(signal: Array) -> None:
    """Into a pipe it writes a length of 0x7FFFF000 bytes, or of the whole frames in it."""
    data = wav(stored(signal, "s16"), "s16", 192000)
    assert demodulated(data=data[:40] + struct.pack("<I", 0x7FFFF000) + data[44:]) == GROUPS[1:]
    header = wav(b"", "s24", 192000)[:40] + struct.pack("<I", 0x7FFFF000 // 3 * 3)
    assert wav_layout(io.BytesIO(header)).length is None


def test_a_length_that_has_no_room_in_a_header(file: Any, monkeypatch: pytest.MonkeyPatch) -> None:
    """Of a file longer than 4 GiB, here of 1,000 bytes, it is what is left of that. A chunk after the samples is none of them."""
    monkeypatch.setattr(samples, "WRAPPED", 1000)
    data = wav(bytes(2500), "s16", 192000) + b"LIST" + struct.pack("<I", 200) + bytes(200)
    path = file(data[:40] + struct.pack("<I", 500) + data[44:])
    source = open_samples(path, raw=None, rate=None, channel=None, is_iq=False)
    assert sum(map(len, source.blocks())) == 1250


@pytest.mark.parametrize("offset", ["nan", "inf", "128000", "316000", "98100000"])
def test_an_offset_outside_of_the_band(offset: str, radio: Array) -> None:
    """Beyond half of the sample rate an offset would be that of another station."""
    data = stored(radio, "u8")
    done = monitor("demod", "--raw", "u8", "--iq", "--rate", 256000, "--offset", offset, data=data)
    fault = f"--offset {float(offset):.10g} is not in the band, which has 128000 Hz on both sides"
    assert done.returncode == 1 and fault in done.stderr.decode() and done.stdout == b""


def test_wav_from_a_pipe_does_not_say_how_long_it_is(signal: Array) -> None:
    data = wav(stored(signal, "s16"), "s16", 192000)
    assert demodulated(data=data[:40] + b"\xff" * 4 + data[44:]) == GROUPS[1:]


def test_memory_does_not_grow() -> None:
    options = ("--raw", "s16", "--rate", str(RATE), "--output", "/dev/null")
    before, after = (peak_memory("demod", *options, data=bytes(2 * RATE * seconds)) for seconds in (10, 50))
    assert after < before + 4000 and after < 100000


def test_one_of_two_channels(signal: Array, file: Any) -> None:
    both = numpy.column_stack([numpy.zeros(signal.size), signal]).ravel()
    path = file(wav(stored(both, "s16"), "s16", 192000, channels=2))
    assert demodulated("--channel", 2, path) == GROUPS[1:]


def test_unpacked_bits_are_the_same(signal: Array, file: Any) -> None:
    path = file(stored(signal, "s16"))
    packed = monitor("demod", *S16, path)
    unpacked = monitor("demod", *S16, "--unpacked", path).stdout
    assert numpy.packbits(numpy.frombuffer(unpacked, "u1")).tobytes() == packed.stdout
    assert 24 * 104 - 5 < len(unpacked) <= 24 * 104
    assert b"coherent for 100.0 %" in packed.stderr


def test_json_at_times_and_at_the_end(signal: Array) -> None:
    data = stored(mpx(encode(words(3, 48)), 192000), "s16")
    done = monitor("demod", *S16, "--json", "--every", 0.2, data=data)
    told = [json.loads(line) for line in done.stderr.splitlines()]
    assert len(told) >= 3 and told[0]["seconds"] < told[-1]["seconds"]
    assert abs(told[-1]["snr_db"] - 30) < 1 and told[-1]["bits"] >= 48 * 104 - 5 and told[-1]["locked"] == 1
    # No more of them than were asked for.
    done = monitor("demod", *S16, "--json", "--every", 0.8, data=stored(signal, "s16") * 3)
    times = [json.loads(line)["seconds"] for line in done.stderr.splitlines()]
    assert len(times) >= 4 and all(after - before >= 0.8 for before, after in zip(times, times[1:-1]))


@pytest.mark.parametrize("every", ["0", "-1", "nan"])
def test_reports_that_would_never_come(every: str) -> None:
    done = run("demod", *S16, "--every", every)
    assert done.status == 2 and "--every is a number of seconds above 0" in done.err


@pytest.mark.parametrize("rate,said", [(192000, 171000), (171000, 250000), (228500, 240000)])
def test_a_wrong_rate_is_told(rate: int, said: int) -> None:
    data = stored(mpx(encode(words(6, 30)), rate), "s16")
    done = monitor("demod", "--raw", "s16", "--rate", said, data=data)
    fault = f"no RDS at {said} samples per second, but at {rate}: use --rate {rate}"
    assert done.returncode == 1 and fault in done.stderr.decode()


def test_a_wrong_rate_of_iq_beside_the_centre() -> None:
    """The channel is looked at where the station is."""
    signal = iq(mpx(encode(GROUPS[:12]), 480000, snr=40), 480000, cnr=40, offset=150000.0)
    source: Any = SimpleNamespace(rate=500000)
    assert "at 500000 samples per second, but at 480000" in str(no_rds(source, signal, 150000.0))


def test_six_seconds_are_kept_to_find_the_rate() -> None:
    """Of eight seconds without RDS, or none of them if there is RDS."""
    source: Any = SimpleNamespace(rate=10, blocks=lambda: iter([numpy.ones(10)] * 8))
    for locked, size in ((0.0, 60), (1.0, 0)):
        receiver = SimpleNamespace(quality=SimpleNamespace(locked=locked, seconds=0.0))
        none = [numpy.zeros(0, "u1")]
        capture: Any = SimpleNamespace(receivers=[receiver], push=lambda of: none, finish=lambda: none)
        teller = QualityLine(argparse.Namespace(json=False, every=None), io.StringIO())
        assert receive(source, capture, BitWriter("-", True), teller).size == size


def test_an_interrupt_waits_for_the_end_of_a_block() -> None:
    """Ctrl-C within it: its bits are written, and no further block is read."""
    source: Any = SimpleNamespace(rate=10, blocks=lambda: iter([numpy.ones(10)] * 8))
    pushed: List[int] = []

    def push(of: Array) -> List[Array]:
        os.kill(os.getpid(), signals.SIGINT)
        pushed.append(of.size)
        return [numpy.ones(8, "u1")]

    quality = SimpleNamespace(locked=0.0, seconds=0.0, report=lambda: {"locked": 0.0, "seconds": 0.0})
    receiver = SimpleNamespace(quality=quality, is_soft=False)
    capture: Any = SimpleNamespace(receivers=[receiver], push=push, finish=lambda: [numpy.zeros(0, "u1")])
    writer = BitWriter(os.devnull, True)
    teller = QualityLine(argparse.Namespace(json=False, every=None), io.StringIO())
    # A worker of pytest may ignore it.
    before = signals.signal(signals.SIGINT, signals.default_int_handler)
    try:
        with pytest.raises(KeyboardInterrupt):
            receive(source, capture, writer, teller)
    finally:
        signals.signal(signals.SIGINT, before)
    assert (pushed, writer.written) == ([10], 8)


def test_a_file_without_standard_input(signal: Array, file: Any) -> None:
    path = file(stored(signal, "s16"))
    done = subprocess.run(
        ["sh", "-c", '"$@" <&-', "sh", sys.executable, "-m", "rds_monitor", "demod", *map(str, S16), path],
        capture_output=True,
    )
    assert done.returncode == 0 and whole_groups(done.stdout) == GROUPS[1:]


def test_when_reports_are_due() -> None:
    """From the first interval on, each at its end, and with the name of the station."""
    asked, stream = argparse.Namespace(json=False, every=2.0), io.StringIO()
    teller = QualityLine(asked, stream, "98.1M")
    for seconds in (1.9, 2.0, 3.9, 4.0, 4.1):
        teller.tell(seconds, lambda: {"locked": 0, "seconds": seconds})
    lines = [f"rds-monitor demod: 98.1M: {seconds} s, no RDS\n" for seconds in (2.0, 4.0)]
    assert stream.getvalue() == "".join(lines)


def test_a_wrong_rate_in_a_header_and_no_rds(signal: Array, file: Any) -> None:
    path = file(wav(stored(signal, "s16"), "s16", 250000))
    assert b"use --rate 192000" in monitor("demod", path).stderr
    assert demodulated("--rate", 192000, path) == GROUPS[1:]
    done = monitor("demod", "--raw", "s16", "--rate", RATE, data=stored(NOISE[: 3 * RATE], "s16"))
    assert done.returncode == 1 and b"no RDS was found" in done.stderr


def test_a_file_that_is_cut_off_gives_the_bits_up_to_there(signal: Array, file: Any) -> None:
    data = wav(stored(signal, "s16"), "s16", 192000)
    whole = monitor("demod", file(data)).stdout
    done = monitor("demod", file(data[:500000]))
    assert done.returncode == 1
    assert f"it has 499956 of the {len(data) - 44} bytes of samples" in done.stderr.decode()
    assert done.stdout[:180] == whole[:180] and len(done.stdout) > 190


WAV = wav(bytes(100), "s16", 192000)


RAW = "--raw s16 --rate 171000"
# The words and the input, with the fault.
NO_INPUTS = [
    (RAW, bytes(1001), "ends within a sample, 1 bytes after the last whole one"),
    (RAW, bytes(1), "ends within a sample, 1 bytes after the last whole one"),
    ("--iq --raw f32 --rate 171000", bytes(3), "ends within a sample, 3 bytes after the last whole one"),
    (RAW, b"", "there is no sample in the input"),
    (RAW, bytes(100), "the input is too short for a bit"),
    ("--raw s16 --rate 127999", bytes(100), "a sample rate of 127999 is not 128000 to 20000000"),
    ("--raw f32 --rate 171000", bytes(400) + b"\0\0\xc0\x7f", "sample 101 is nan: no signal has it"),
    ("--iq --raw f32 --rate 171000", bytes(404) + b"\0\0\xc0\x7f", "sample 51 is nan: no signal has it"),
    ("", bytes(100), "the input is neither WAV nor FLAC: name its samples with --raw and --rate"),
    ("", b"fLaC" + bytes(100), "FLAC is read from a file only"),
    ("", wav(b"", "s16", 192000), "there is no sample in the input"),
    ("", WAV[:30], "the WAV file ends within its header"),
    ("", wav(b"", "s16", 192000, more=b"LIST" + b"\xff" * 4 + bytes(100)), "ends within its header"),
    ("", WAV.replace(b"\1\0\1\0", b"\7\0\1\0", 1), "WAV samples of format 7 with 16 bits are not read"),
    ("", WAV.replace(b"fmt ", b"none", 1), "the WAV file does not say what its samples are"),
    ("", WAV.replace(b"\1\0\1\0", b"\1\0\0\0", 1), "the WAV file has no channel"),
    ("--iq", WAV, "IQ has two channels, and the input has 1"),
    ("none-such", b"", "'none-such' cannot be read: No such file or directory"),
]


@pytest.mark.parametrize("command,data,said", NO_INPUTS)
def test_inputs_that_cannot_be_read(command: str, data: bytes, said: str, tmp_path: Path) -> None:
    done = monitor("demod", "--output", tmp_path / "out", *command.split(), data=data)
    assert done.returncode == 1 and said in done.stderr.decode()
    # The output is begun with its first bits.
    assert [*tmp_path.iterdir()] == [] or b"s, no RDS\n" in done.stderr


@pytest.mark.skipif(not os.path.exists("/dev/full"), reason="there is no /dev/full")
def test_a_full_disk(signal: Array) -> None:
    done = monitor("demod", *S16, "--output", "/dev/full", data=stored(signal, "s16"))
    assert done.returncode == 1 and b"No space left on device" in done.stderr
