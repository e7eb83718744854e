"""The stations of a capture by command: `demod --stations`, and how its centre is known."""

from __future__ import annotations

import json
import re
import struct
from pathlib import Path
from types import SimpleNamespace
from typing import Any, Dict, List
from unittest import mock

import numpy
import pytest
from captures import PROGRAMMES, SMALL_RATE, SMALL_SECONDS, Sent, captured, small_capture
from conftest import monitor
from made import peak_memory, run, said
from measure_demod import whole_groups
from modulator import stored, wav

from rds_monitor.capture import stations
from rds_monitor.capture.picture import Drawing, picture_of
from rds_monitor.capture.stations import HEAD, StationSeen
from rds_monitor.rows.items import Fault
from rds_monitor.signal.centre import centre_in_auxi, centre_in_name, frequency_of, frequency_text, sigmf_of
from rds_monitor.signal.found import Spectrum, candidates, with_rds
from rds_monitor.signal.samples import open_samples
from rds_monitor.signal.several import LineWriter, TunedStations, Tuning

pytestmark = pytest.mark.xdist_group("stations")
RATE, SECONDS = SMALL_RATE, SMALL_SECONDS
RAW = ("--stations", "--raw", "s16", "--rate", RATE)
GROUPS = {f"{frequency / 1e6:g}M.bin": groups for frequency, groups in PROGRAMMES.items()}


@pytest.fixture(scope="module")
def capture() -> bytes:
    return small_capture()


def told(error: bytes) -> Dict[str, Any]:
    return {line["frequency"]: line for line in map(json.loads, error.decode().splitlines())}


def right(name: str, bits: bytes) -> int:
    """How many of the groups were sent."""
    return sum(group in GROUPS[name] for group in whole_groups(bits))


def received_in(folder: Path) -> Dict[str, int]:
    """By file."""
    names = sorted(path.name for path in folder.iterdir())
    return {name: right(name, (folder / name).read_bytes()) for name in names}


AUXI = b"auxi" + struct.pack("<I", 68) + bytes(32) + struct.pack("<I", 97950000) + bytes(32)


def test_stations_that_are_found(capture: bytes, tmp_path: Path) -> None:
    """The centre is in the header. Each has a file, and a line of the report."""
    path = tmp_path / "capture.wav"
    path.write_bytes(wav(capture, "s16", RATE, channels=2, more=AUXI))
    done = monitor("demod", "--stations", "--json", "--output", tmp_path / "bits", path)
    assert done.returncode == 0, done.stderr
    found = received_in(tmp_path / "bits")
    assert list(found) == ["97.8M.bin", "98.1M.bin"] and min(found.values()) >= 18
    report = told(done.stderr)
    levels = {frequency: line["level_dbfs"] for frequency, line in report.items()}
    # In integers a third of an amplitude of 1.
    assert levels == {97800000: pytest.approx(-24.5, abs=1), 98100000: pytest.approx(-9.5, abs=1)}
    assert all(line["bits"] >= 23 * 104 - 200 and line["snr_db"] > 15 for line in report.values())
    for frequency, line in report.items():
        assert (tmp_path / "bits" / f"{frequency / 1e6:g}M.bin").stat().st_size == -(-line["bits"] // 8)


def test_named_stations_from_a_pipe(capture: bytes) -> None:
    """Without a folder, lines have the bits as they come. Each is reported at times, and at the end, 11 ms before that of the capture."""
    words_ = (*RAW, "--centre", "97.95M", "--at", "98.1M,97.8M", "--equalise", "97.8M", "--every", 0.6)
    done = monitor("demod", *words_, data=(2 * capture)[: -11 * RATE // 1000 * 4])
    assert done.returncode == 0, done.stderr
    lines = [json.loads(line) for line in done.stdout.decode().splitlines()]
    for name, frequency in (("98.1M.bin", 98100000), ("97.8M.bin", 97800000)):
        own = [line for line in lines if line["frequency"] == frequency]
        bits = bytes.fromhex("".join(line["bits"] for line in own))
        assert right(name, bits) >= 36
        assert own[-1]["seconds"] == 3.789 and len(own) >= 4
        assert all(line["level_dbfs"] is not None for line in own[:-1])
        text = f"rds-monitor demod: {name[:-4]}: (.*) s, .* % of its bits in valid blocks"
        *times, last = map(float, re.findall(text, done.stderr.decode()))
        assert times and last == 3.8
        assert all(after - before >= 0.6 for before, after in zip([0, *times], times))


def test_a_station_alone_is_the_same(capture: bytes) -> None:
    """As `demod --offset` gives it."""
    (one,) = (
        json.loads(line)["bits"]
        for line in [
            monitor("demod", *RAW, "--centre", 0, "--at", "150k", data=capture).stdout.splitlines()[0]
        ]
    )
    plain = monitor(
        "demod", "--iq", *RAW[1:], "--offset", 150000, "--no-equaliser", "--output", "-", data=capture
    )
    assert plain.stdout.startswith(bytes.fromhex(one)) and len(one) > 100


def test_memory_and_an_input_without_end(capture: bytes, tmp_path: Path) -> None:
    """Stations without RDS are left out after some seconds, and memory does not grow."""
    options = (*map(str, RAW), "--centre", "97.95M", "--output", str(tmp_path))
    before, after = (peak_memory("demod", *options, data=capture * times) for times in (4, 9))
    assert after < before + 4000 and after < 150000
    assert sorted(path.name for path in tmp_path.iterdir()) == ["97.8M.bin", "98.1M.bin"]


# ---- the command `stations`


SHOWN = ("--raw", "s16", "--rate", RATE, "--centre", "97.95M")


@pytest.mark.usefixtures("decoder")
def test_the_table(capture: bytes) -> None:
    done = monitor("stations", *SHOWN, data=capture)
    assert done.returncode == 0, done.stderr
    head, *rows = (line.split(maxsplit=4) for line in done.stdout.decode().splitlines())
    assert head[0] == "frequency" and [row[:1] + row[3:] for row in rows] == [
        ["97.8M", "D319", "<B> & C"],
        ["98.1M", "D318", "ALPHA"],
    ]


def test_json_without_a_centre(capture: bytes) -> None:
    """Frequencies are offsets. Of an input that is cut off what was found is told, and the fault."""
    data = wav(capture, "s16", RATE, channels=2)[:-1000]
    done = monitor("stations", "--json", data=data)
    found = [json.loads(line) for line in done.stdout.splitlines()]
    assert [(one["frequency"], one["pi"]) for one in found] == [(-150000, "D319"), (150000, "D318")]
    assert done.returncode == 1 and b"the file is cut off" in done.stderr


@pytest.fixture(scope="module")
def page(capture: bytes) -> str:
    return monitor("stations", *SHOWN, "--html", data=capture).stdout.decode()


def test_the_picture(page: str) -> None:
    """The marks are where the spectrum has its humps; what stations say is text, and no script may run."""
    assert "default-src 'none'; style-src 'sha256-" in page and "<script" not in page
    assert "2 stations in 0.6 MHz around 97.95M" in page and "&lt;B&gt; &amp; C" in page and "<B>" not in page
    (line,) = re.findall(r'<polyline points="([^"]+)"', page)
    points = [tuple(map(float, point.split(","))) for point in line.split()]
    marks = [float(at) for at in re.findall(r'class="mark" x1="([\d.]+)"', page)]
    assert marks == [pytest.approx(1200 * (300 + at) / 600, abs=5) for at in (-150, 150)]
    for mark in marks:
        near = [y for x, y in points if abs(x - mark) < 100]
        beside = [y for x, y in points if 150 < abs(x - mark) < 250]
        assert min(near) < min(beside)


def test_a_picture_and_its_names(page: str) -> None:
    """The grid fills 1200 by 320, as the line and the marks do. Three lines of names are below. The line is thin at any size, and not filled."""
    rule = ".spectrum polyline { fill: none; stroke: var(--missing); stroke-width: 1; vector-effect: non-scaling-stroke; }"
    rules = f"{rule}\n.spectrum line {{ stroke: var(--line); }} .spectrum .mark {{ stroke: var(--lost); }}\n"
    assert f"\n{rules}</style>" in page
    assert 'viewBox="0 0 1200 360"' in page and re.search(r'<polyline points="0.0,[^"]* 1200.0,[^ "]*"', page)
    levels = [float(at) for at in re.findall(r'<line x1="0" x2="1200" y1="([\d.]+)"', page)]
    assert len(levels) > 2 and levels == [
        pytest.approx(320 - 320 * n / (len(levels) - 1), abs=0.1) for n in range(len(levels))
    ]
    assert re.findall(r'class="mark" [^>]* y1="0" y2="(\d+)"', page) == ["320", "320"]


def test_names_in_a_picture() -> None:
    """The PS, or else the PI, each in the line below that of its neighbour, of which there are three."""
    rows = [("97.9M", "-9.0", "20.0", "D317", "-")]
    rows += [(f"98.{n}M", "-9.0", "20.0", "D318", f" PS{n} ") for n in range(3)]
    spectrum = Spectrum(numpy.ones(96), numpy.arange(-48e4, 48e4, 1e4))
    page = picture_of(spectrum, Tuning(98e6, 960000), [-1e5, 0.0, 1e5, 2e5], HEAD, rows)
    texts = map(" ".join, re.findall(r'<text x="([\d.]+)" y="([\d.]+)"[^>]*>([^<]*)</text>', page))
    assert "; ".join(texts) == (
        "2 318.0 0 dB; 2 11.0 10 dB; 480.0 332 97.9M; 483.0 12 D317; 606.3 344 98.0M; 609.3 24 PS0; "
        "732.6 356 98.1M; 735.6 36 PS1; 858.9 332 98.2M; 861.9 12 PS2"
    )


def test_a_line_has_a_point_per_column_at_most() -> None:
    """The mean power of each three of 2,500 bins is 10 dB, the lowest level; one bin is left over."""
    spectrum = Spectrum(numpy.append(numpy.tile([1.0, 1.0, 28.0], 833), 5.0), numpy.arange(2500.0))
    points = " ".join(f"{1200 * n / 832:.1f},320.0" for n in range(833))
    assert Drawing(spectrum).line() == f'<polyline points="{points}"/>'


def test_how_high_a_hump_is() -> None:
    """Of power within 50 kHz its window has 0.919, and those beside it 0.5. As strong as noise it is a hump, 28 % high; one of 1.2 % is noise."""
    offsets = numpy.arange(-400e3, 400e3, 2000.0)
    for more, wanted in ((1.0, [150e3]), (0.03, [])):
        power = 1.0 + more * (abs(offsets - 150e3) <= 50e3)
        assert candidates(Spectrum(power, offsets), 0.0) == wanted
    power = 1.0 + (abs(offsets - 130e3) <= 50e3)
    assert candidates(Spectrum(power, offsets), 97.97e6) == [130e3]


def test_no_station() -> None:
    silence = bytes(4 * RATE // 8)
    for more, shown in (([], b""), (["--html"], b"0 stations in 0.6 MHz")):
        done = monitor("stations", *SHOWN, *more, data=silence)
        assert done.returncode == 1 and shown in done.stdout and b"no station was found" in done.stderr
    assert b"--raw needs --rate" in monitor("stations", "--raw", "u8").stderr
    cut = wav(bytes(4000), "s16", RATE, channels=2)[:-1000]
    assert b"the file is cut off" in monitor("stations", data=cut).stderr


def test_a_station_that_says_little(monkeypatch: pytest.MonkeyPatch) -> None:
    """What did not come is a hyphen, or null in JSON."""
    found = StationSeen(98e6, None, 20.0, None, "Ä")
    monkeypatch.setattr(stations, "stations_in", lambda *of: (None, [found], None))
    told = ['{"frequency": 98000000.0, "level_dbfs": null, "snr_db": 20.0, "pi": null, "ps": "Ä"}']
    assert said("stations", *SHOWN, "--json") == told
    assert said("stations", *SHOWN)[1].split() == ["98M", "-", "20.0", "-", "Ä"]


# ---- errors


def test_stations_without_rds() -> None:
    """An input without end is not read on after the seconds in which none was found."""
    quiet = stored(captured([Sent(50e3, b"")], RATE, SECONDS, -60), "s16")
    for times in (1, 4):
        done = monitor("demod", *RAW, data=times * quiet)
        assert done.returncode == 1 and done.stdout == b""
        assert done.stderr == b"rds-monitor demod: no station with RDS was found\n"


FAULTS = [
    (["--at", "98.1M"], "the centre of the capture is not known: name it by --centre"),
    (
        ["--centre", "97.95M", "--at", "98.2M"],
        "98.2M is not in the band: it has stations from 97.75M to 98.15M",
    ),
    (["--centre", "0", "--at", "10k,10k"], "0.01M is named twice"),
    (["--centre", "0", "--at", "10k,x"], "'x' is no frequency such as 98.1M"),
    (["--centre", "0", "--at", "10k", "--equalise", "20k"], "0.02M is equalised, but is no station"),
    (["--centre", "0", "--at", "10k"], "no RDS was found at any frequency"),
    ([], "no station was found"),
]


@pytest.mark.parametrize(("more", "fault"), FAULTS, ids=range(len(FAULTS)))
def test_faults(more: List[str], fault: str) -> None:
    done = monitor("demod", *RAW, *more, data=bytes(4 * RATE // 8))
    assert done.returncode == 1 and fault in done.stderr.decode()


@pytest.mark.parametrize(
    "words_",
    [
        ["--at", "98.1M", "--iq"],
        ["--stations", "--offset", "3"],
        ["--stations", "--unpacked"],
        ["--stations", "--centre", "98X"],
    ],
)
def test_misuse(words_: List[str]) -> None:
    assert run("demod", "--raw", "u8", "--rate", "600000", *words_).status == 2


# ---- the centre


@pytest.mark.parametrize(
    ("name", "centre"),
    [
        ("SDRSharp_20261129_120000Z_98100000Hz_IQ.wav", 98100000),
        ("HDSDR_20261129_120000Z_98100kHz_RF.wav", 98100000),
        ("29-Nov-2026 120000.123 98.100MHz 000.wav", 98100000),
        ("gqrx_20261129_120000_98100000_2400000_fc.raw", 98100000),
        ("monday_2400000.u8", None),
        ("1.0900000008ghz.u8", 1090000000.8),
        ("0.1234567 khz.u8", 123.457),
    ],
)
def test_names(name: str, centre: Any) -> None:
    assert centre_in_name(f"/somewhere/10MHz/{name}") == centre


def test_the_chunk_of_spectravue() -> None:
    """Two times, the centre, and other fields; XML that names no centre is none, however long."""
    centre = struct.pack("<I", 97950000)
    assert centre_in_auxi(b"\0\0\0\0<" + bytes(27) + centre) == centre_in_auxi(AUXI[8:]) == 97950000
    for body in (bytes(32) + centre[:3], bytes(36), b"\xef\xbb\xbf<" + bytes(28) + centre, b""):
        assert centre_in_auxi(body) is None


def test_the_chunk_of_sdr_console(capture: bytes, tmp_path: Path) -> None:
    text = '<SDR-XML-Root><Definition RadioCenterFreq="97950000"/></SDR-XML-Root>'.encode("utf-16-le")
    path = tmp_path / "capture.wav"
    chunk = b"auxi" + struct.pack("<I", len(text)) + text
    path.write_bytes(wav(capture[: RATE * 2], "s16", RATE, channels=2, more=chunk))
    done = monitor("demod", "--stations", "--at", "98.1M", "--json", path)
    assert list(told(done.stderr)) == [98100000]


def test_sigmf(capture: bytes, tmp_path: Path) -> None:
    """It tells the form and the rate too. Either file may be named."""
    told_ = {
        "global": {"core:datatype": "ci16_le", "core:sample_rate": 600e3},
        "captures": [{"core:frequency": 97.95e6}],
    }
    data, meta = (tmp_path / f"capture.sigmf-{name}" for name in ("data", "meta"))
    data.write_bytes(capture[: RATE * 2])
    meta.write_text(json.dumps(told_))
    for path in (data, meta):
        done = monitor("demod", "--stations", "--at", "98.1M", "--json", path)
        assert list(told(done.stderr)) == [98100000], done.stderr
    meta.write_text(json.dumps({**told_, "global": {"core:datatype": "rf32_le", "core:sample_rate": 1}}))
    with pytest.raises(Fault, match="samples rf32_le are not read"):
        sigmf_of(str(data))
    meta.write_text("{}")
    with pytest.raises(Fault, match="is no description of a recording"):
        sigmf_of(str(data))
    meta.unlink()
    assert sigmf_of(str(data)) is None


KINDS = {"cu8": "u8", "ci16_le": "s16", "ci16": "s16", "cf32_le": "f32", "cf32": "f32"}


@pytest.mark.parametrize("kind", KINDS)
def test_kinds_of_sigmf(kind: str, tmp_path: Path) -> None:
    """The first capture has the centre. A rate that is named overrides the one described."""
    data, meta = (tmp_path / f"it.sigmf-{name}" for name in ("data", "meta"))
    described = {"core:datatype": kind, "core:sample_rate": 250000.4}
    known: List[List[float]] = [[9e7, 8e7], []]
    for frequencies, centre in zip(known, (9e7, None)):
        captures = [{"core:frequency": one} for one in frequencies]
        meta.write_text(json.dumps({"global": described, "captures": captures}))
        assert sigmf_of(str(meta)) == (str(data), KINDS[kind], 250000, centre)
    data.write_bytes(bytes(8))
    for named, rate in ((None, 250000), (192000, 192000)):
        assert open_samples(str(meta), raw=None, rate=named, channel=None, is_iq=False).rate == rate


@pytest.mark.parametrize("more, centre", [(b"", 98.1e6), (AUXI, 97.95e6)])
def test_a_header_has_the_centre_or_else_the_name(more: bytes, centre: float, tmp_path: Path) -> None:
    path = tmp_path / "98100000Hz"
    path.write_bytes(wav(bytes(8), "s16", RATE, channels=2, more=more))
    for raw, wanted in ((None, centre), ("u8", 98.1e6)):
        source = open_samples(str(path), raw=raw, rate=RATE, channel=None, is_iq=True)
        assert source.centre == wanted


def test_two_that_are_too_near() -> None:
    """The better one counts, wherever it is; those 150 kHz apart are two, and noise is none."""
    shares, offsets = (0.5, 0.9, 0.6, 0.04, 0.05), (-100e3, 0.0, 150e3, 400e3, 600e3)
    receivers = [
        SimpleNamespace(quality=SimpleNamespace(received=SimpleNamespace(share=one))) for one in shares
    ]
    assert with_rds(SimpleNamespace(receivers=receivers), offsets) == [1, 2, 4]  # type: ignore[arg-type]
    assert with_rds(SimpleNamespace(receivers=receivers[1::-1]), offsets[:2]) == [0]  # type: ignore[arg-type]


def test_no_more_is_read_than_is_looked_at() -> None:
    """Of parts of 0.1 s two are 0.2 s. At the end no bit is made up. Stations are looked for in 0.5 s."""
    parts, ends = iter([numpy.zeros(12800, "c8")] * 10), list[int]()
    source: Any = SimpleNamespace(rate=128000, full_scale=1.0, blocks=lambda: parts)
    heard: Any = SimpleNamespace(push=lambda bits, last=False: ends.append(bits.size) if last else None)
    stations = TunedStations(source, Tuning(0.0, 128000), lambda station: heard, [0.0])
    stations.run(0.2)
    assert stations.seconds == 0.2 and ends == [0]
    look = mock.Mock(side_effect=Fault("looked"))
    with mock.patch("rds_monitor.signal.several.spectrum_of", look), pytest.raises(Fault, match="looked"):
        TunedStations(source, Tuning(0.0, 128000), lambda station: heard).run()
    assert look.call_args[0][0].size == 64000 and len([*parts]) == 3


def test_lines_have_all_whole_bytes() -> None:
    """Of 70 bits 64 at once, and the rest with the next ones. A line is told to the millisecond, and does not wait for the next one."""
    strength = SimpleNamespace(_asdict=lambda: {"level_dbfs": -3.0, "snr_db": 20.0})
    receiver = SimpleNamespace(quality=SimpleNamespace(recent=lambda: strength), is_soft=False)
    writer = LineWriter(98.1e6, receiver, lambda: 1.2346)  # type: ignore[arg-type]
    with mock.patch("builtins.print") as printed:
        for size in (70, 1, 1):
            writer.push(numpy.ones(size, "u1"))
    assert all(call[1] == {"flush": True} for call in printed.call_args_list)
    lines = [json.loads(call[0][0]) for call in printed.call_args_list]
    assert [line["seconds"] for line in lines] == [1.235, 1.235]
    assert [line["bits"] for line in lines] == [8 * "ff", "ff"] and writer.written == 72


def test_frequencies() -> None:
    for text, hertz in (("98.1M", 98.1e6), ("98100k", 98.1e6), ("98100000", 98.1e6), ("-0.2M", -2e5)):
        assert frequency_of(text) == hertz
    assert [frequency_text(98.05e6), frequency_text(1e8), frequency_text(3e5, False)] == [
        "98.05M",
        "100M",
        "+0.3M",
    ]
    assert frequency_of("999.999G") < 1e12 and frequency_of("1.2345678k") == 1234.568
    assert frequency_text(101234567.8) == "101.2345678M"
    for text in ("", "98.1 MHz", "nan", "1e99", "1000G"):
        with pytest.raises(Fault):
            frequency_of(text)
    assert [str(Tuning(98e6, 600000).hertz(offset)) for offset in (0.1226, 2.0)] == [
        "98000000.123",
        "98000002",
    ]
    band = Tuning(97.95e6, 600000)
    assert band.offsets_of("97.75M,98.15M") == [-2e5, 2e5]
    with pytest.raises(Fault, match="98.150001M is not in the band"):
        band.offsets_of("98.150001M")
