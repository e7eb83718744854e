#!/usr/bin/python3
"""Three simulated stations, watched at 200 times real time, and four of one simulated capture, in real time:
monitor/demo/run.py [--seconds N] [--folder FOLDER]

Beta has noise for a quarter of each second hour, and one wrong bit in 200. Gamma's receiver dies after an hour and a half, and another PI
comes for half an hour of each three. The other four are in the band of one receiver of IQ (capture.py), which is demodulated as it comes.
The addresses are printed: of a page of the three once it shows them, of a picture of the capture's spectrum, and of a page of the four.
The pages go on until this is interrupted, or for N seconds.

It decodes as rds-monitor does. If there is no decoder, it builds rds without proof, in a minute or so."""

from __future__ import annotations

import argparse
import json
import os
import signal
import subprocess
import sys
import tempfile
import time
from pathlib import Path

import capture
from unproved import build, is_new

HERE = Path(__file__).resolve().parent
TOP = HERE.parents[1]
MONITOR = [sys.executable, str(TOP / "monitor" / "rds-monitor")]
# An unproved program has enough to do with 60.
SPEED, SLOW = 200, 60
LONGEST_START = 100.0

STATIONS = (
    ("Alpha", 98.1, "D318", "ALPHA", "Now: Harbour Lights, by the Night Shift", ""),
    ("Beta", 100.3, "D319", "BETA FM", "Traffic: all roads are clear", "--errors 0.005 --outage 7200:900"),
    ("Gamma", 103.7, "D31A", "GAMMA", "News at the hour", "--dies 5400 --wrong-pi 10800:1800"),
)

PLAYED = "capture_98MHz.u8"  # what the receiver of several stations plays
SAMPLES = ["--raw", "u8", "--rate", str(capture.WIDE)]


def table_of_capture(folder: Path) -> str:
    command = json.dumps([sys.executable, str(HERE / "capture.py"), "--keep", str(folder / PLAYED)])
    found = f"folder = {json.dumps(str(folder / 'capture'))}\n"
    found += f'[[receiver]]\nname = "band"\ncommand = {command}\nraw = "u8"\nrate = {capture.WIDE}\ncentre = {capture.CENTRE}\n'
    for station in capture.STATIONS:
        found += f'[[station]]\nname = "{station.programme.ps}"\nreceiver = "band"\nfrequency = {station.frequency}\n'
        found += f'pi = "{station.programme.pi:04X}"\n'
    return found


def table(folder: Path) -> str:
    found = f"folder = {json.dumps(str(folder))}\n"
    for name, frequency, pi, ps, rt, more in STATIONS:
        options = ["--pi", pi, "--ps", ps, "--rt", rt, *more.split()]
        command = json.dumps([sys.executable, str(HERE / "station.py"), *options])
        found += f'[[station]]\nname = "{name}"\nfrequency = {frequency}\npi = "{pi}"\nps = "{ps}"\n'
        found += f"command = {command}\n"
    return found


def decoder() -> str:
    """The decoder that rds-monitor finds, as it names it."""
    done = subprocess.run([*MONITOR, "--version"], stdout=subprocess.PIPE, text=True)
    return done.stdout.partition("\ndecoder: ")[2].strip() or sys.exit(done.returncode)


def speed_by(found: str) -> int:
    """The speed for this decoder, or for a program that is built if there is none."""
    program, speed = TOP / "build" / "unproved" / "rds", SPEED
    if found.startswith("none: "):
        if not is_new(program):
            print(
                "there is no decoder: rds is built without proof, in a minute or so",
                file=sys.stderr,
                flush=True,
            )
            build(program)
        os.environ["RDS"] = str(program)
        found, speed = f"{program}, which is not proved", SLOW
    print(f"decoded by {found}, at {speed} times real time", file=sys.stderr, flush=True)
    return speed


class Watch:
    """A watch as a process, and the page of its stations."""

    def __init__(self, folder: Path, text: str, names: "list[str]", *options: str):
        folder.mkdir(parents=True, exist_ok=True)
        path, self.page, self._names = folder / "stations.toml", folder / "pages" / "index.html", names
        path.write_text(text)
        self.process = subprocess.Popen([*MONITOR, "watch", *options, str(path)])

    def shows_all(self) -> bool:
        text = self.page.read_text() if self.page.exists() else ""
        return all(f">{ps}<" in text for ps in self._names)

    def tell(self) -> None:
        """Prints the address once all stations are shown."""
        end = time.monotonic() + LONGEST_START
        while not self.shows_all():
            if self.process.poll() is not None or time.monotonic() > end:
                sys.exit("the watch did not begin")
            time.sleep(0.2)
        print(self.page.as_uri(), flush=True)

    def end(self) -> None:
        self.process.send_signal(signal.SIGTERM)
        try:
            self.process.wait(30)
        except subprocess.TimeoutExpired:
            self.process.kill()


def picture(folder: Path) -> None:
    """Of the capture, which it makes."""
    make = [sys.executable, str(HERE / "capture.py"), "--keep", str(folder / PLAYED), "--make"]
    subprocess.run(make, check=True)
    page = folder / "capture.html"
    with open(page, "wb") as file:
        subprocess.run(
            [*MONITOR, "stations", "--html", *SAMPLES, str(folder / PLAYED)], stdout=file, check=True
        )
    print(page.as_uri(), flush=True)


def main() -> int:
    parser = argparse.ArgumentParser(description=(__doc__ or "").split("\n")[0])
    text = "end after so long (default: when interrupted)"
    parser.add_argument("--seconds", type=float, default=0.0, help=text)
    parser.add_argument("--folder", help="where to write (default: a new folder)")
    arguments = parser.parse_args()
    speed = speed_by(decoder())
    folder = Path(arguments.folder or tempfile.mkdtemp(prefix="rds-monitor-demo-")).resolve()
    folder.mkdir(parents=True, exist_ok=True)
    watches = [Watch(folder, table(folder), [station[3] for station in STATIONS], "--speed", str(speed))]
    try:
        watches[0].tell()
        picture(folder)
        names = [station.programme.ps for station in capture.STATIONS]
        watches.append(Watch(folder / "capture", table_of_capture(folder), names))
        watches[1].tell()
        watches[0].process.wait(arguments.seconds or None)
    except (KeyboardInterrupt, subprocess.TimeoutExpired):
        pass
    finally:
        for watch in watches:
            watch.end()
    return 0


if __name__ == "__main__":
    sys.exit(main())
