"""Forms of bits and samples, the commands that `form` prints for them, and `pack`."""

from __future__ import annotations

import argparse
import io
import os
import re
import subprocess
import sys
import unittest.mock
from pathlib import Path
from typing import Any, Callable, Dict, List, Optional, Sequence, Tuple

import numpy
import pytest
from conftest import PROGRAM, STATION, encode, monitor, rds
from hypothesis import given, settings
from hypothesis import strategies as st
from made import output as rds_monitor
from modulator import Array, iq, mpx, stored, wav, words

from rds_monitor.rows.items import Fault
from rds_monitor.signal import form, rates
from rds_monitor.signal.pack import READERS, BitWriter, Conversion, bits_of, packed_of
from rds_monitor.signal.rates import BLOCK, _by_pilot, likely_rate
from rds_monitor.signal.samples import FORMS as FORMS_OF_SAMPLES, Flac, numbers

STATION_BYTES = STATION.read_bytes()
BITS = numpy.unpackbits(numpy.frombuffer(STATION_BYTES, "u1"))


def samples(dtype: str, zero: float, one: float) -> bytes:
    return numpy.where(BITS, one, zero).astype(dtype).tobytes()


def symbols(dtype: str, zero: float, one: float) -> bytes:
    """One more than bits: a bit is 1 between two unlike ones."""
    signs = numpy.bitwise_xor.accumulate(numpy.concatenate([[1], BITS]))
    return numpy.where(signs, one, zero).astype(dtype).tobytes()


def forms(path: Any) -> List[Tuple[int, str, str]]:
    """The rows of `form`."""
    done = monitor("form", path)
    assert done.returncode == 0, done.stderr
    names, *lines = done.stdout.decode().splitlines()
    assert names == "complete groups, form, command"
    rows = (re.split(" {2,}", line.strip(), maxsplit=2) for line in lines)
    return [(int(count), name, command) for count, name, command in rows]


def shell(command: str, tmp_path: Path) -> bytes:
    """What a command writes, with the programs that it names on the path."""
    for name, text in (("rds-monitor", f"{sys.executable} -m rds_monitor"), ("rds", PROGRAM)):
        (tmp_path / name).write_text(f'#!/bin/sh\nexec {text} "$@"\n')
        (tmp_path / name).chmod(0o755)
    environment = {**os.environ, "PATH": f"{tmp_path}:{os.environ['PATH']}"}
    return subprocess.run(["sh", "-c", command], env=environment, check=True, stdout=subprocess.PIPE).stdout


HEX = "\n".join(STATION_BYTES.hex()[at : at + 64] for at in range(0, 2 * len(STATION_BYTES), 64)).encode()
LIST_CHUNK = b"LIST\x05\0\0\0xxxxx\0"  # of an odd length, which ends in a byte that it does not count
DIFFERENTIAL = numpy.packbits(numpy.bitwise_xor.accumulate(BITS)).tobytes()


def lowest_first(data: bytes) -> bytes:
    return numpy.packbits(numpy.unpackbits(numpy.frombuffer(data, "u1")).reshape(-1, 8)[:, ::-1]).tobytes()


INVERTED = bytes(byte ^ 255 for byte in STATION_BYTES)
ONE_SAMPLE = "a WAV file of one sample per bit"

# The options of `pack` that give packed bits again.
FORMS = [
    ("packed bits", STATION_BYTES, None),
    ("packed bits, lowest bit first", lowest_first(STATION_BYTES), "packed --lsb-first"),
    ("packed bits, inverted", INVERTED, "packed --invert"),
    ("packed bits, before differential decoding", DIFFERENTIAL, "packed --differential"),
    (
        "packed bits, lowest bit first, before differential decoding",
        lowest_first(DIFFERENTIAL),
        "packed --lsb-first --differential",
    ),
    ("hexadecimal digits", HEX, "hex"),
    ("hexadecimal digits, inverted", INVERTED.hex().encode(), "hex --invert"),
    ("hexadecimal digits, lowest bit first", lowest_first(STATION_BYTES).hex().encode(), "hex --lsb-first"),
    ("unpacked bits, bytes 0 and 1", samples("u1", 0, 1), "bytes"),
    ("unpacked bits, bytes 0 and 255", samples("u1", 0, 255), "bytes255"),
    ("a text of 0 and 1", samples("u1", 48, 49), "text"),
    ("signed bytes, one sample per bit", samples("i1", -1, 1), "s8"),
    ("16-bit samples, one per bit", samples("<i2", -1200, 900), "s16"),
    ("16-bit samples, one per bit, inverted", samples("<i2", 900, -1200), "s16 --invert"),
    ("soft bits, 32-bit floating point", samples("<f4", -0.8, 1.3), "f32"),
    (ONE_SAMPLE, wav(samples("u1", 40, 210), "u8", 99999), "wav"),
    (ONE_SAMPLE, wav(samples("<i2", -1200, 900), "s16", 1187, more=LIST_CHUNK) + b"LIST", "wav"),
    (ONE_SAMPLE, wav(samples("<f4", -0.8, 1.3), "f32", 1187), "wav"),
    ("signed bytes, one per symbol, as rds --soft reads them", symbols("i1", -99, 127), "soft"),
    ("32-bit floating point, one per symbol", symbols("<f4", 0.8, -1.3), "soft-f32"),
]


@pytest.mark.parametrize("name,data,options", FORMS, ids=[f"{at}-{one[0]}" for at, one in enumerate(FORMS)])
def test_the_form_and_its_cure(
    decoder: str, name: str, data: bytes, options: Optional[str], tmp_path: Path
) -> None:
    path = tmp_path / "it's a $(file)"
    path.write_bytes(data)
    groups, found, cure = forms(path)[0]
    command = f"rds-monitor pack --from {options} " if options else "cat "
    assert (found, cure.startswith(command)) == (name, True) and groups >= 500
    # the command decodes nothing
    assert decoder == "rds" or shell(cure, tmp_path) == STATION_BYTES


def test_forms_are_in_columns(
    tmp_path: Path, monkeypatch: pytest.MonkeyPatch, capsys: pytest.CaptureFixture[str]
) -> None:
    """The one with the most groups is first."""
    (tmp_path / "it").write_bytes(b"\0")
    monkeypatch.setattr(
        form, "forms_of", lambda path, head: [(2, "longer", "cat a"), (1922, "form", "cat b")]
    )
    assert form.run_form(argparse.Namespace(input=str(tmp_path / "it"))) == 0
    assert capsys.readouterr().out.splitlines()[1:] == ["  1922  form    cat b", "     2  longer  cat a"]


def test_lines_of_groups(tmp_path: Path) -> None:
    lines = rds_monitor("groups", STATION).splitlines()
    text = "".join(f"{line} @2026/03/29 00:30:00.00\r\n" for line in lines)
    (tmp_path / "lines").write_text(text)
    _, name, cure = forms(tmp_path / "lines")[0]
    assert name == "lines of hexadecimal words"
    # The first one lacks a block.
    assert rds("list", data=shell(cure, tmp_path)).count(b"\ngroup,") >= len(lines) - 2
    # Half of the lines are enough, of which the last one is empty.
    texts = (lines[-1].encode() + b"\n" + count * b"none\n" for count in (0, 1))
    assert [len(form.as_lines("it", text)) for text in texts] == [1, 0]


def test_a_station_that_comes_late(tmp_path: Path) -> None:
    random = numpy.random.default_rng(1)
    (tmp_path / "late").write_bytes(random.bytes(480000) + 2 * STATION_BYTES + random.bytes(24000))
    assert forms(tmp_path / "late")[0][1] == "packed bits"


def test_a_station_at_the_end(tmp_path: Path) -> None:
    """The last of the parts that are looked at ends with the file."""
    random = numpy.random.default_rng(1)
    (tmp_path / "late").write_bytes(random.bytes(1000000) + STATION_BYTES[:10000])
    assert forms(tmp_path / "late")[0][1] == "packed bits"


def test_parts_of_a_long_file(tmp_path: Path) -> None:
    """The header, then 25 parts at equal distances after it; a file that has no more than these is whole."""
    path, data = tmp_path / "it", bytes(range(251)) * 2000
    path.write_bytes(data[: 46 + 260000])
    parts = [data[begin : begin + 10000] for begin in range(46, 46 + 25 * 10416, 10416)]
    assert form.parts_of(str(path), 46) == data[:46] + b"".join(parts)
    path.write_bytes(data[: 46 + 249999])
    assert form.parts_of(str(path), 46) == path.read_bytes()


def test_two_groups_are_enough(tmp_path: Path) -> None:
    """The one in which sync is acquired is not whole."""
    for count in (3, 2):
        (tmp_path / "it").write_bytes(encode(words(3, count)))
        done = monitor("form", tmp_path / "it")
        assert (b"     2  packed bits" in done.stdout) == (done.returncode == 0) == (count == 3)


NOISE = numpy.random.default_rng(1).bytes(320000)


@pytest.mark.parametrize("data,said", [(b"", "is empty"), (NOISE, "two complete groups")], ids=len)
def test_no_form(data: bytes, said: str, tmp_path: Path) -> None:
    (tmp_path / "noise").write_bytes(data)
    done = monitor("form", tmp_path / "noise")
    assert (done.returncode, done.stdout) == (1, b"") and said in done.stderr.decode()
    assert monitor("form", "none such").returncode == 1


def test_a_listing_is_named(tmp_path: Path, station_listing: bytes) -> None:
    for data in (station_listing, station_listing.replace(b"\n", b"\r\n"), b"\xef\xbb\xbf" + station_listing):
        (tmp_path / "it").write_bytes(data)
        done = monitor("form", tmp_path / "it")
        assert done.stdout.startswith(b"a listing of rds list or rds follow") and done.returncode == 0
    (tmp_path / "it").write_bytes(station_listing.decode().encode("utf-16"))
    assert b"UTF-16" in monitor("form", tmp_path / "it").stderr


# ---- signals

GROUPS = words(7, 48)
SENT = encode(GROUPS)


@pytest.fixture(scope="module")
def signal() -> Array:
    return mpx(SENT, 192000)


@pytest.fixture(scope="module")
def radio() -> Array:
    return iq(mpx(SENT, 256000, snr=40), 256000, cnr=40)


@pytest.mark.parametrize(
    "name,form",
    [("mpx.wav", "s16"), ("mpx.s16", "s16"), ("mpx.f32", "f32"), ("iq.wav", "s16"), ("iq.u8", "u8")],
)
def test_signals(name: str, form: str, signal: Array, radio: Array, tmp_path: Path) -> None:
    of_iq, of_mpx = ("IQ", radio, 256000, 2), ("MPX", signal, 192000, 1)
    kind, samples, rate, channels = of_iq if name[:2] == "iq" else of_mpx
    data = stored(samples, form)
    (tmp_path / name).write_bytes(wav(data, form, rate, channels) if name.endswith("wav") else data)
    groups, found, cure = forms(tmp_path / name)[0]
    assert groups >= 40 and kind in found and str(rate) in found
    assert cure.startswith("rds-monitor demod ") and (" --iq" in cure) == (kind == "IQ")
    assert int(rds("totals", data=shell(cure, tmp_path)).split(b"total,complete,")[1].split(b",")[0]) >= 45


@pytest.mark.parametrize("rate", [100000, 110250, 124000, 20000001])
def test_a_rate_that_is_not_demodulated(rate: int, tmp_path: Path) -> None:
    """No command is named that would refuse it."""
    (tmp_path / "it").write_bytes(wav(bytes(2 * rate), "s16", rate))
    done = monitor("form", tmp_path / "it")
    assert done.returncode == 1 and f"a sample rate of {rate} is not 128000 to" in done.stderr.decode()


def test_a_signal_that_is_cut_off(signal: Array, tmp_path: Path) -> None:
    (tmp_path / "it").write_bytes(wav(stored(signal, "s16"), "s16", 192000)[:-1000])
    assert forms(tmp_path / "it")[0][2].startswith("rds-monitor demod ")


def test_a_wav_file_of_100_khz_is_a_signal(tmp_path: Path, monkeypatch: pytest.MonkeyPatch) -> None:
    """Its first ten seconds are looked at."""
    (tmp_path / "it").write_bytes(wav(bytes(8), "s16", 100000))
    looked = unittest.mock.Mock(side_effect=Fault("looked"))
    monkeypatch.setattr(form, "beginning_of", looked)
    with pytest.raises(Fault, match="looked"):
        form.forms_of(str(tmp_path / "it"), b"RIFF")
    assert looked.call_args[0][1] == 1000000


def test_the_largest_number_of_a_form_is_its_full_scale() -> None:
    for name in ("u8", "s16", "s24", "s32"):
        (largest,) = numbers(stored(numpy.array([3.0]), name), name)
        assert 0.99 < largest / FORMS_OF_SAMPLES[name][1] <= 1, name
    assert FORMS_OF_SAMPLES["f32"][1] == FORMS_OF_SAMPLES["f64"][1] == Flac.full_scale == 1


@pytest.mark.parametrize("apart", [-9, -8, 8, 9])
def test_rates_by_the_strongest_lines(apart: int) -> None:
    """Of two, to 10 Hz, by tops between the bins. What is within eight bins of the first one is no other."""
    power, places = numpy.full(BLOCK // 2 + 1, 1e-12), numpy.arange(BLOCK // 2 + 1)
    for rate, level in ((213370, 0.09), (301230, 0.05)):
        power += level * numpy.exp(-((places - 19000 / rate * BLOCK) ** 2))
    beside = round(19000 / 213370 * BLOCK) + apart
    power[beside] = 0.07
    second = 301230 if abs(apart) == 8 else round(1900 / beside * BLOCK) * 10
    assert _by_pilot(power) == [213370, second]


def test_two_blocks_of_samples_tell_the_rate(signal: Array) -> None:
    assert [likely_rate(signal[:size]) for size in (65535, 65536)] == [None, 192000]


@pytest.mark.parametrize("share, rate", [(0.5, None), (0.51, 192000)])
def test_a_rate_has_rds_for_more_than_half_of_the_time(
    share: float, rate: Any, signal: Array, monkeypatch: pytest.MonkeyPatch
) -> None:
    monkeypatch.setattr(rates, "locked", lambda samples, rate, offset: (share, None))
    assert likely_rate(signal[:65536]) == rate


def test_mpx_in_the_second_channel_and_in_flac(signal: Array, tmp_path: Path) -> None:
    both = numpy.column_stack([numpy.zeros(signal.size), signal])
    (tmp_path / "two.wav").write_bytes(wav(stored(both.ravel(), "s16"), "s16", 192000, channels=2))
    cures = [cure for _, _, cure in forms(tmp_path / "two.wav")]
    assert cures[0].startswith("rds-monitor demod --channel 2 ") and "--channel 1 " not in " ".join(cures)
    for channel in (0, 3):
        done = monitor("demod", "--channel", channel, tmp_path / "two.wav")
        assert done.returncode == 1 and b"there is no channel %d of 2" % channel in done.stderr
    soundfile = pytest.importorskip("soundfile")
    soundfile.write(tmp_path / "two.flac", both / 3, 192000)
    assert forms(tmp_path / "two.flac")[0][2].startswith("rds-monitor demod --channel 2 ")


# ---- pack


# Inputs of `pack --from FORM`, with the fault of each.
NO_BITS = [
    ("bytes", b"\0\1\2", "byte 3 is 0x02, neither 0x00 nor 0x01"),
    ("bytes255", b"\1\0", "byte 1 is 0x01, neither 0x00 nor 0xFF"),
    ("text", b"01 2", "character 4 is neither 0 nor 1"),
    ("text", b" \n", "there is no bit in the input"),
    ("hex", b"12\n3g", "byte 5 is 0x67, neither a hexadecimal digit nor blank"),
    ("hex", b"1 2\n3", "there is an odd number of hexadecimal digits"),
    ("s8", b"\1\0\1", "no sample is below zero"),
    ("s8", b"\xff\0", "no sample is above zero"),
    ("f32", b"", "there is no bit in the input"),
    ("s16", b"\1\0\xff", "the last sample is cut off"),
    ("f32", b"\0\0\x80\x7f", "a sample is no number"),
    ("soft", b"", "there is no bit in the input"),
    ("soft", b"\x7f\0\1", "no sample is below zero"),
    ("soft", b"\x80\0\xff", "no sample is above zero"),
    ("soft-f32", b"\0\0\x80\x3f", "no sample is below zero"),
    ("soft-f32", b"\0\0\x80\x3f\0\0\x80", "the last sample is cut off"),
    ("soft-f32", b"\0\0\xc0\x7f", "a sample is no number"),
    ("wav", STATION_BYTES, "neither WAV nor FLAC"),
    ("wav", wav(bytes(8), "s16", 1187, channels=2), "the WAV file has 2 channels"),
    ("bytes none", b"", "none: No such file or directory"),
]


@pytest.mark.parametrize("words_,data,said", NO_BITS)
def test_inputs_that_are_no_bits(words_: str, data: bytes, said: str, tmp_path: Path) -> None:
    done = monitor("pack", "--output", tmp_path / "out", "--from", *words_.split(), data=data)
    assert done.returncode == 1 and said in done.stderr.decode()
    # The output is begun with its first byte.
    assert [path.read_bytes() for path in tmp_path.iterdir()] == [b"\x12"] * ("odd number" in said)


def test_a_fault_far_in_the_input() -> None:
    done = monitor("pack", "--from", "text", data=b"01" * 100_000 + b"2")
    assert done.returncode == 1 and b"character 200001 is neither 0 nor 1" in done.stderr


def test_the_number_of_bits_is_told_if_the_last_byte_is_not_full() -> None:
    done = monitor("pack", "--from", "text", data=b"101\n")
    assert done.stdout == b"\xa0" and b"3 bits" in done.stderr and b"--bits 3" in done.stderr
    assert monitor("pack", "--from", "text", data=b"10101010").stderr == b""


def test_symbols_are_bits_that_are_decoded() -> None:
    """-128 is a symbol as any, and 0 is not above zero."""
    assert (
        monitor("pack", "--from", "soft", data=bytes([5, 128, 0, 1, 127, 255, 255, 9, 0])).stdout == b"\xab"
    )
    done = monitor("pack", "--from", "soft", "--differential", data=b"\1\xff")
    assert done.returncode == 2 and b"--differential is for bits" in done.stderr
    done = monitor("pack", "--from", "bytes", "--lsb-first", data=b"\1")
    assert done.returncode == 2 and b"--lsb-first is for packed bits and hex" in done.stderr


def test_whole_bytes_are_written_at_once(tmp_path: Path) -> None:
    writer = BitWriter(str(tmp_path / "it"), True)
    writer.push(numpy.ones(9, "u1"))
    assert (tmp_path / "it").read_bytes() == b"\xff" and writer.written == 9


class Trickle:
    """A stream that gives a few bytes at a time, as a pipe may."""

    def __init__(self, data: bytes, steps: Sequence[int]):
        self._data, self._steps = data, list(steps)

    def read(self, most: int) -> bytes:
        size = min(most, self._steps.pop() if self._steps else most)
        taken, self._data = self._data[:size], self._data[size:]
        return taken


def before(bits: Array) -> Array:
    """Symbols as bits, before differential decoding."""
    return numpy.bitwise_xor.accumulate(numpy.append(numpy.uint8(0), bits))


ENCODINGS: Dict[str, Callable[[Array], bytes]] = {
    "packed": lambda bits: numpy.packbits(bits).tobytes(),
    "bytes": lambda bits: bits.tobytes(),
    "bytes255": lambda bits: (bits * 255).tobytes(),
    "text": lambda bits: (bits + 48).tobytes(),
    "hex": lambda bits: numpy.packbits(bits).tobytes().hex().encode(),
    "s8": lambda bits: (2 * bits.astype("i1") - 1).tobytes(),
    "s16": lambda bits: (2 * bits.astype("<i2") - 1).tobytes(),
    "f32": lambda bits: (2 * bits.astype("<f4") - 1).tobytes(),
    # samples that no power of two divides
    "wav": lambda bits: wav(stored(6.0 * bits - 3, "s24"), "s24", 1187),
    "soft": lambda bits: ENCODINGS["s8"](before(bits)),
    "soft-f32": lambda bits: ENCODINGS["f32"](before(bits)),
}


def test_every_form_has_a_reader() -> None:
    assert set(ENCODINGS) == set(READERS)


@given(
    form=st.sampled_from(sorted(READERS)),
    data=st.binary(min_size=1, max_size=40),
    inverted=st.booleans(),
    differential=st.booleans(),
    steps=st.lists(st.integers(1, 9), max_size=20),
    chunk=st.sampled_from([8, 24, 1 << 20]),
)
@settings(max_examples=150, deadline=None)
def test_what_was_written_in_a_form_is_read(
    form: str, data: bytes, inverted: bool, differential: bool, steps: List[int], chunk: int
) -> None:
    # The first byte has both values, so that samples are on both sides of zero.
    bits = numpy.unpackbits(numpy.frombuffer(b"\x5a" + data, "u1"))
    sent = numpy.bitwise_xor.accumulate(bits) if differential else bits
    sent = sent ^ 1 if inverted else sent
    stream: Any = Trickle(ENCODINGS[form](sent.astype("u1")), steps if form != "wav" else [])
    change = Conversion(inverted=inverted, differential=differential)
    with unittest.mock.patch("rds_monitor.signal.pack.CHUNK", chunk):
        parts, counts = zip(*packed_of(bits_of(stream, form, change)))
    if set(sent.tolist()) == {0, 1}:
        assert (b"".join(parts), sum(counts)) == (b"\x5a" + data, bits.size)


def test_samples_of_a_wav_file_without_a_length() -> None:
    """All up to the end of the input, in more than one chunk."""
    data = wav(samples("u1", 40, 210), "u8", 1187)
    stream = io.BytesIO(data[:40] + b"\xff" * 4 + data[44:])
    with unittest.mock.patch("rds_monitor.signal.pack.CHUNK", 8192):
        assert (numpy.concatenate([*bits_of(stream, "wav")]) == BITS).all()


@pytest.mark.parametrize("size, begin", [(64, 0), (95, 0), (96, 16), (384, 160)])
def test_what_is_looked_at_of_a_long_signal(
    size: int, begin: int, tmp_path: Path, monkeypatch: pytest.MonkeyPatch
) -> None:
    """The middle, from a whole frame on, of which the longest have eight bytes."""
    monkeypatch.setattr(form, "SIGNAL_BYTES", 64)
    data = bytes(7 * n % 256 for n in range(size))
    whole, part = tmp_path / "whole", tmp_path / "part"
    whole.write_bytes(data)
    part.write_bytes(data[begin : begin + 64])
    for raw, is_iq in (("u8", False), ("s16", True)):
        found, wanted = (form.signal_of(str(path), raw, is_iq) for path in (whole, part))
        assert found.size == 64 // (4 if is_iq else 1) and (found == wanted).all()
