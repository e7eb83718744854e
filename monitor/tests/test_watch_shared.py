"""Receivers that several stations share: their table, a simulated network, and the real process."""

from __future__ import annotations

import json
import signal
import subprocess
import time
from pathlib import Path
from typing import Any, Callable, Dict, List
from unittest import mock

import pytest
from captures import PROGRAMMES, SMALL_CENTRE, SMALL_RATE, small_capture
from conftest import COMMAND
from made import run
from network import START, Air, Network, Plan, Programme, SharedAir, asked, stations

from rds_monitor.rows.items import Fault
from rds_monitor.watch.receiver import Process
from rds_monitor.watch.shared import SharedReceiver, demodulator
from rds_monitor.watch.table import ReceiverTable, table_of


# Two receivers of fifteen stations each.
COUNT = 15
RECEIVERS = {"north": 97.0, "south": 100.5}


def name_of(receiver: str, number: int) -> str:
    return f"{receiver}{number:02}"


def frequency(receiver: str, number: int) -> float:
    return round(RECEIVERS[receiver] - 1.4 + 0.2 * number, 1)


# What a simulated receiver gives is bits.
HARD = "soft = false"


def receiver(name: str, *more: str) -> str:
    lines = [f'name = "{name}"', f'command = ["{name}"]', 'raw = "u8"', "rate = 3200000", *more]
    return "[[receiver]]\n" + "\n".join(lines) + "\n"


QUIET = "[defaults.alarms]\nsilent = false\nno_rds = false\nslow = false\n"
SHARED = (
    QUIET
    + "".join(receiver(name, f"centre = {centre}", HARD) for name, centre in RECEIVERS.items())
    + "".join(
        stations(f'name = "{name_of(of, n)}"', f'receiver = "{of}"', f"frequency = {frequency(of, n)}")
        for of in RECEIVERS
        for n in range(COUNT)
    )
)
SINGLE = QUIET + "".join(
    stations(
        f'name = "{name_of(of, n)}"', f'command = ["{name_of(of, n)}"]', f"frequency = {frequency(of, n)}"
    )
    for of in RECEIVERS
    for n in range(COUNT)
)
# One dies and then hangs; the other hangs later.
PLANS = {"north": [Plan(dies=8.25), Plan(hangs=6)], "south": [Plan(hangs=14)]}


def files_in(folder: Path) -> Dict[str, bytes]:
    return {str(path.relative_to(folder)): path.read_bytes() for path in (folder / "listings").rglob("*.csv")}


def test_thirty_stations_of_two_receivers(tmp_path: Path) -> None:
    """A receiver dies, both hang, and the watch is killed and begins again: the hours, minutes and runs of each station are those
    that it has with a receiver of its own."""
    airs = {
        name_of(of, n): Air(Programme(0xD300 + n, f"{of[:1].upper()}{n}", "Now"), START, 130)
        for of in RECEIVERS
        for n in range(COUNT)
    }
    together: Dict[str, SharedAir] = {
        of: SharedAir({round(1e6 * frequency(of, n)): airs[name_of(of, n)] for n in range(COUNT)})
        for of in RECEIVERS
    }
    for name in ("shared", "single"):
        (tmp_path / name).mkdir()
    plans = {name_of(of, n): list(PLANS[of]) for of in RECEIVERS for n in range(COUNT)}
    nets = [
        Network(tmp_path / "shared", SHARED, together, {of: list(PLANS[of]) for of in RECEIVERS}),
        Network(tmp_path / "single", SINGLE, airs, plans),
    ]
    for net in nets:
        net.run(48, tick=4.0)
        net.restart(1.5, kill=True)
        net.run(68, tick=4.0)
        metrics, page = ((net.folder / name).read_text() for name in ("metrics.prom", "pages/index.html"))
        told = ('rds_level_dbfs{station="north03"} -23\n', 'rds_snr_db{station="south14"} 16\n')
        assert [text in metrics for text in told] == [net is nets[0]] * 2
        assert ("RDS SNR 16.0 dB, level -34.0 dBFS" in page) == (net is nets[0])
        net.end()
    reasons = nets[0].asked("SELECT DISTINCT reason FROM runs ORDER BY reason")
    hung, died, killed = "gave no byte for 10 s", "ended with status 1: unplugged", "the watch was killed"
    assert [text for (text,) in reasons] == [died, hung, "the watch ended", killed]
    # One process for all of them.
    assert len(nets[1].runs) == COUNT * len(nets[0].runs)
    shared, single = (files_in(net.folder) for net in nets)
    assert len(single) >= 3 * 2 * COUNT and shared == single
    for query in (
        "SELECT station, begin_utc, end_utc, reason FROM runs ORDER BY station, begin_utc",
        "SELECT station, begin_utc, minute, sent, valid, pi, ps FROM minutes ORDER BY station, begin_utc",
    ):
        assert nets[0].asked(query) == nets[1].asked(query) != []
    query = "SELECT DISTINCT station, level_dbfs, snr_db FROM minutes WHERE level_dbfs IS NOT NULL ORDER BY station"
    numbers = [(name_of(of, n), n) for of in RECEIVERS for n in range(COUNT)]
    assert nets[0].asked(query) == [(name, -20.0 - n, 30.0 - n) for name, n in numbers]


def few(count: int, more: str = "") -> str:
    """A table of a receiver with this number of stations."""
    lines = (
        stations(f'name = "A{n}"', 'receiver = "north"', f"frequency = {96.5 + 0.4 * n}")
        for n in range(count)
    )
    return more + receiver("north", "centre = 97.0", HARD) + "".join(lines)


def test_a_changed_table(tmp_path: Path) -> None:
    """A station more restarts its receiver, since that demodulates it; other keys and names do not. A new name waits for its session, and
    only the old one is no longer in the table. A receiver that left begins again once it is back."""
    airs = {n: Air(Programme(0xD300 + n, "A", ""), START, 100) for n in range(3)}
    air = SharedAir({round(1e6 * (96.5 + 0.4 * n)): one for n, one in airs.items()})
    net = Network(tmp_path, few(2), {"north": air, "c": airs[0]})
    net.run(5)
    net.reload(few(2, "[defaults.alarms]\nsilent = 30\n"))
    net.reload(few(2).replace('"A1"', '"B"'))
    net.watch.tick()
    assert "no session: <bdi>the receiver starts</bdi>" in (tmp_path / "pages" / "B.html").read_text()
    ((left,),) = net.asked("SELECT state FROM station_rows WHERE station = 'A1'")
    assert json.loads(left)["reason"] == "it is no longer in the table"
    net.run(5)
    assert len(net.runs) == 1 and set(net.watch.stations) == {"A0", "B"}
    net.reload(few(3))
    net.run(8)
    assert len(net.runs) == 2
    net.reload(stations('name = "C"', 'command = ["c"]'))
    net.run(4)
    net.reload(few(3))
    net.run(8)
    assert [name for name, _ in net.runs] == ["north", "north", "c", "north"]
    net.end()
    counts = dict(net.asked("SELECT station, COUNT(*) FROM runs GROUP BY station"))
    assert counts == {"A0": 3, "A1": 3, "A2": 2, "B": 1, "C": 1}
    assert all(len(text) > 500 for name in counts for text in net.texts(name)[-1:])


def test_a_receiver_that_is_too_fast(tmp_path: Path) -> None:
    """It is stopped by the first of its stations, and the reason is that of both."""
    air = SharedAir(
        {round(1e6 * (96.5 + 0.4 * n)): Air(Programme(0xD300 + n, "A", ""), START, 9000) for n in (0, 1)}
    )
    net = Network(tmp_path, few(2), {"north": air}, {"north": [Plan(pace=50)]})
    net.run(8)
    reasons = net.asked("SELECT station, reason FROM runs WHERE end_utc NOTNULL")
    assert sorted(reasons) == [(name, "gave bits faster than real time") for name in ("A0", "A1")]
    assert len(net.runs) == 2
    net.end()


# ---- processes


def until(holds: Callable[[], Any], seconds: float = 60.0) -> Any:
    """What holds at last, on a machine that may be loaded."""
    end = time.monotonic() + seconds
    while True:
        found = holds()
        if found:
            return found
        assert time.monotonic() < end
        time.sleep(0.05)


@pytest.mark.xdist_group("stations")
@pytest.mark.parametrize("soft", [HARD, ""])
def test_the_hours_are_those_of_a_receiver_for_each(soft: str, tmp_path: Path) -> None:
    """A receiver gives a capture and ends: of each station the whole session is there, as by a receiver of its own."""
    (tmp_path / "capture").write_bytes(small_capture())
    command = json.dumps(["cat", str(tmp_path / "capture")])
    of = f'command = {command}\nraw = "s16"\nrate = {SMALL_RATE}\n{soft}\n'
    text = f'[[receiver]]\nname = "north"\ncentre = {SMALL_CENTRE / 1e6}\n{of}'
    for hertz in PROGRAMMES:
        text += f'[[station]]\nname = "S{hertz}"\nreceiver = "north"\nfrequency = {hertz / 1e6}\n'
        text += f'[[station]]\nname = "O{hertz}"\nform = "iq"\nequaliser = false\n{of}offset = {hertz - SMALL_CENTRE}\n'
    (tmp_path / "stations.toml").write_text(text)
    words = [*COMMAND, "watch", "--folder", str(tmp_path), str(tmp_path / "stations.toml")]
    process = subprocess.Popen(words, stderr=subprocess.DEVNULL)
    try:
        until(lambda: (tmp_path / "metrics.prom").exists())
        ended = "SELECT COUNT(DISTINCT station) FROM sessions JOIN recordings ON recording = recordings.id WHERE finished"
        until(lambda: asked(tmp_path, ended) == [(2 * len(PROGRAMMES),)])
    finally:
        process.send_signal(signal.SIGTERM)
        assert process.wait(60) == 0
    for hertz, groups in PROGRAMMES.items():
        first = [min((tmp_path / "listings" / f"{of}{hertz}").iterdir()).read_bytes() for of in "SO"]
        assert first[0] == first[1] and b"total,complete,2" in first[0]
        assert (b"total,soft6," in first[0]) == (not soft)
        assert first[0].decode().count(f",A:{groups[0][0]:04X},") >= 18


def table_of_two(*lines: str) -> ReceiverTable:
    """A receiver of the small capture."""
    text = f'[[receiver]]\nname = "north"\ncommand = ["x"]\nraw = "s16"\nrate = {SMALL_RATE}\ncentre = {SMALL_CENTRE / 1e6}\n'
    (found,) = table_of(
        text + stations('name = "A"', 'receiver = "north"', "frequency = 98.1", *lines)
    ).receivers
    return found


@pytest.mark.xdist_group("stations")
@pytest.mark.parametrize(
    ("words", "reason"),
    [
        (["sh", "-c", "echo unplugged >&2; exit 3"], "ended with status 3: unplugged"),
        (["sh", "-c", "head -c 1200000 /dev/zero; exit 2"], "ended with status 2"),
        (["cat", "/dev/zero"], "was ended by SIGKILL"),
    ],
)
def test_how_a_run_ended(words: List[str], reason: str) -> None:
    """That of the command; but if the demodulator is killed, which ends the command, that."""
    process = Process(words, demodulator(table_of_two("equaliser = true")))
    data = b""
    try:
        if words[0] == "cat":
            data = until(process.read)
            process._last.kill()
        said = until(lambda: process.read() is None and process.ended())
    finally:
        process.kill()
        process.close()
    assert said == reason and (b'{"frequency":98100000,' in data) == (words[0] == "cat")


def test_a_demodulator_that_is_missing() -> None:
    with pytest.raises(OSError):
        Process(["sleep", "60"], ["/none/python"])


# ---- the table

STATION = ('name = "A"', 'receiver = "north"', "frequency = 97.4")
NORTH = receiver("north", "centre = 97.0")


def test_a_station_of_a_receiver() -> None:
    """The keys of the defaults that its receiver has do not count."""
    defaults = '[defaults]\nform = "mpx"\nraw = "s16"\nrate = 171000\npatience = 3\n'
    beta = ("--", 'name = "B"', 'receiver = "north"', "frequency = 96.6", "equaliser = true")
    one, other = table_of(defaults + NORTH + stations(*STATION, *beta)).stations
    assert one.receiver is not None and one.receiver == other.receiver
    assert (one.form, one.raw, one.rate, one.patience, one.soft) == ("iq", "u8", 3200000, 10, True)
    assert [tuple(tuned) for tuned in one.receiver.tuned] == [(96600000, True), (97400000, False)]
    words = "demod --stations --soft --raw u8 --rate 3200000 --centre 97000000 --at 96600000,97400000 --equalise 96600000"
    assert demodulator(one.receiver)[-13:] == tuple(words.split())
    own = ('name = "C"', 'command = ["c"]', 'form = "iq"', 'raw = "u8"', "rate = 240000")
    assert table_of(stations(*own)).stations[0].equaliser
    assert not table_of(stations(*own, "equaliser = false")).stations[0].equaliser


FAULTS = [
    (stations(*STATION), "station 'A': there is no receiver 'north'"),
    (NORTH + stations(*STATION[:2]), "station 'A' has no 'frequency', which its receiver needs"),
    (
        NORTH + stations(*STATION[:2], "frequency = 98.6"),
        "98.6 MHz is not in the band of receiver 'north': that has 95.5 to 98.5 MHz",
    ),
    (NORTH + stations(*STATION, "rate = 171000"), "'rate' is a key of its receiver"),
    (NORTH + stations(*STATION, "--", 'name = "B"', *STATION[1:]), "has two stations at 97.4 MHz"),
    (NORTH + stations('name = "A"', 'command = ["a"]'), "receiver 'north' has no station"),
    (NORTH + NORTH + stations(*STATION), "there are two receivers 'north'"),
    (receiver("north") + stations(*STATION), "receiver 'north' has no 'centre'"),
    (receiver("north", "centre = 97", 'form = "mpx"') + stations(*STATION), "one of iq is"),
    (stations('name = "A"', 'command = ["a"]', "equaliser = true"), "'equaliser' is for the form iq"),
    (stations('name = "A"', 'command = ["a"]', "soft = true"), "'soft' is for the forms mpx and iq"),
    (receiver("north", "centre = 97", "soft = 1") + stations(*STATION), "true or false is needed"),
    (few(1).replace("frequency", "soft = true\nfrequency"), "'soft' is a key of its receiver"),
]


@pytest.mark.parametrize(("text", "fault"), FAULTS, ids=range(len(FAULTS)))
def test_errors(text: str, fault: str) -> None:
    with pytest.raises(Fault) as caught:
        table_of(text)
    assert fault in str(caught.value)


def test_a_station_that_left_while_others_go_on_does_not_run() -> None:
    """Once all have left, each runs until the receiver has ended. Time passes twice as fast."""
    launch = lambda words, through: mock.Mock(**{"read.return_value": b"", "ended.return_value": None})
    shared = SharedReceiver(
        table_of(receiver("north", "centre = 97.0") + stations(*STATION)).receivers[0], 2.0, launch, 0.0
    )
    taps = [shared.tap(hertz, 0.0) for hertz in (97_200_000, 97_400_000)]
    assert [tap.patience for tap in taps] == [20.0, 20.0]
    found = []
    for tap in taps:
        tap.read(0.0)
        tap.stop(0.0, "it left")
        found.append([one.is_running for one in taps])
    assert found == [[False, True], [True, True]]
    process: Any = shared.keeper._it
    taps[0].kill()
    assert process.kill.called and not taps[1].is_running


def test_lines_wait_for_their_stations() -> None:
    """They are read once at a moment. A line that is cut goes on at the next one, but not in another run."""
    shared = SharedReceiver(
        table_of(receiver("north", "centre = 97.0") + stations(*STATION)).receivers[0], 1.0, mock.Mock(), 0.0
    )
    one, other = b'{"frequency":1,"bits":""}\n', b'{"frequency":2,"bits":""}\n'
    given = [one + b'{"frequency":3,}\n' + other[:9], other[9:] + one[:20], None, one + one]
    setattr(shared, "keeper", mock.Mock(**{"read.side_effect": given}))
    taps = [shared.tap(hertz, 0.0) for hertz in (1, 2)]
    found = [[tap.read(now) for tap in taps] for now in (1.0, 2.0, 3.0, 4.0)]
    assert found == [[one, b""], [b"", other], [None, None], [one + one, b""]]
    assert [tap.last_byte for tap in taps] == [4.0, 2.0]


@pytest.mark.parametrize(("centre", "warns"), [(97.35, True), (97.3, False)])
def test_a_spike_in_a_channel(tmp_path: Path, centre: float, warns: bool) -> None:
    path = tmp_path / "stations.toml"
    path.write_text(
        receiver("cat", f"centre = {centre}")
        .replace("3200000", "2400000")
        .replace('["cat"]', '["cat", "-u"]')
        + stations(*STATION).replace("north", "cat")
    )
    done = run("watch", "--check", path)
    assert (
        done.status == 0
        and done.out == f"receiver cat: {centre} MHz, cat -u\nA: iq, soft decisions, receiver cat\n"
    )
    told = f"A: the centre of receiver cat, {centre} MHz, is in its channel: if there is a spike at 0 Hz, choose a centre 100 kHz or more"
    assert (told in done.err) == warns
