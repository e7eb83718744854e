#!/usr/bin/env python3
"""The pictures of the docs, by Chromium: monitor/tests/pictures.py FOLDER [network]

It writes overview.png and station.png there, of a page of `report`, year.png, of a page of `report --into`, and network.png, of the demonstration's page after some two minutes;
the last one alone if asked. RDS_LIBRARY names the library; network.png needs none.
"""

from __future__ import annotations

import signal
import subprocess
import sys
import tempfile
import time
from pathlib import Path
from typing import List, Sequence

import numpy

from browser import browser
from conftest import TOP, monitor
from sent import Words, clock, group, name, text
from years import make_year

START = "2026-03-29T00:00:00Z"
# Groups per second.
PACE = 1187.5 / 104
MJD = 61128
# Seconds of the demonstration before its picture is taken, and the most of them; its third station has an alarm once in 54.
DEMO, LONGEST_DEMO = 90, 300


def sent(pi: int, names: Sequence[bytes], texts: Sequence[bytes]) -> bytes:
    """A day of a station that says its names and texts in turn, an hour each, and the time each minute."""
    import librds

    def bits(groups: List[Words]) -> bytes:
        return bytes(librds.encode([(pi, *words[1:]) for words in groups]))

    day, groups = [], 0
    for minute in range(24 * 60):
        hour = minute // 60
        if minute % 60 == 0:
            cycle = bits(
                name(names[hour % len(names)]) + text(texts[hour % len(texts)], hour % 2) + [group("8A", 0)]
            )
        count = int((minute + 1) * 60 * PACE) - groups - 1
        groups += count + 1
        after = minute + 1
        told = clock(MJD + after // 1440, after // 60 % 24, after % 60, 0)
        day.append((cycle * (count // (len(cycle) // 13) + 1))[: 13 * count] + bits([told]))
    return b"".join(day)


def received(bits: bytes, rates: Sequence[float], outages: Sequence[Sequence[int]], seed: int) -> bytes:
    """With bits wrong at a rate for each part of it, and noise in the outages, from second to second."""
    random = numpy.random.default_rng(seed)
    every = numpy.frombuffer(bits, "u1").copy()
    for part, rate in zip(numpy.array_split(every, len(rates)), rates):
        part ^= numpy.packbits(random.random(8 * len(part)) < rate)
    for begin, end in outages:
        low, high = (int(value * 1187.5 / 8) for value in (begin, end))
        every[low:high] = random.integers(0, 256, high - low)
    return every.tobytes()


def network(into: Path) -> None:
    """The demonstration's page, with an alarm."""
    with tempfile.TemporaryDirectory() as given:
        words = [sys.executable, str(TOP / "monitor" / "demo" / "run.py"), "--folder", f"{given}/demo"]
        demo = subprocess.Popen(words, stdout=subprocess.PIPE, text=True)
        try:
            assert demo.stdout
            address, begin = demo.stdout.readline().strip(), time.monotonic()
            page = Path(given) / "demo" / "pages" / "index.html"
            with browser(Path(given)) as driver:
                while time.monotonic() < begin + DEMO or "in place of D31A" not in page.read_text():
                    assert demo.poll() is None and time.monotonic() < begin + LONGEST_DEMO
                    time.sleep(0.2)
                size = {"width": 1180, "height": 440, "deviceScaleFactor": 1, "mobile": False}
                driver.execute_cdp_cmd("Emulation.setDeviceMetricsOverride", size)
                driver.get(address)
                driver.save_screenshot(str(into / "network.png"))
        finally:
            demo.send_signal(signal.SIGINT)
            demo.wait()


def report(into: Path) -> None:
    names, texts = [b"ALPHA   ", b"ALPHA FM"], [
        b"The morning show\r",
        b"News on the hour",
        b"Music all day long\r",
    ]
    rates = [0.001] * 8 + [0.004, 0.01, 0.02, 0.01, 0.004] + [0.001] * 11
    alpha = received(sent(0xD312, names, texts), rates, [(30000, 30002), (61000, 61900)], 1)
    beta = received(sent(0xD313, [b"BETA 104"], [b"Classics\r"]), [0.002], [], 2)
    gamma = sent(0xD314, [b" GAMMA  "], [b"Talk\r", b"Traffic\r"])
    stations = {
        "alpha.bin": alpha,
        "beta.bin": beta,
        "gamma.bin": received(gamma, [0.015], [(86360, 86390)], 3),
    }
    with tempfile.TemporaryDirectory() as given:
        folder = Path(given)
        for file, data in stations.items():
            (folder / file).write_bytes(data)
        for page, words in (("overview", list(stations)), ("station", ["--start", START, "alpha.bin"])):
            done = monitor("report", *words, cwd=folder)
            assert done.returncode == 0, done.stderr
            (folder / f"{page}.html").write_bytes(done.stdout)
        make_year(folder / "year.db", ["Alpha"])
        done = monitor("report", "--into", folder, folder / "year.db")
        assert done.returncode == 0, done.stderr
        (folder / "Alpha-2025.html").rename(folder / "year.html")
        with browser(folder) as driver:
            for page, height in (("overview", 540), ("station", 790), ("year", 1340)):
                driver.get((folder / f"{page}.html").as_uri())
                driver.set_window_size(1000, height)
                driver.save_screenshot(str(into / f"{page}.png"))


if __name__ == "__main__":
    if sys.argv[2:] not in ([], ["network"]) or len(sys.argv) < 2:
        sys.exit(__doc__)
    network(Path(sys.argv[1]))
    if len(sys.argv) == 2:
        report(Path(sys.argv[1]))
