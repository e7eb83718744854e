"""The commands of README.md, as they are printed there: its sessions, each task of the table, and the live pipe.

The `make` commands and the programs of the library have tests of their own (tests/test_package.py, tests/test_library.py).
"""

from __future__ import annotations

import json
import os
import re
import signal
import subprocess
import sys
import time
from pathlib import Path
from typing import Callable, Dict, List

import numpy
import pytest

from captures import Sent, captured
from conftest import PROGRAM, STATION, TOP, rds
from modulator import mpx, stored, wav

TEXT = (TOP / "README.md").read_text(encoding="utf-8")
PATIENCE = 60.0
D3 = os.environ.get("RDS_D3", "/usr/share/javascript/d3/d3.min.js")


def section(title: str) -> str:
    return TEXT.split(f"\n## {title}\n", 1)[1].split("\n## ", 1)[0]


# The command of each task, with a text that its output or its file has.
TASKS: Dict[str, str] = {
    "rds-monitor info bits.bin": "PAXOLIDU",
    "rds-monitor info --csv bits.bin": ",D393,rt,",
    "rds-monitor errors bits.bin": "begin_s,end_s,sent,valid,",
    "rds-monitor report bits.bin > page.html": "</html>",
    "rds-monitor outages bits.bin": "begin_s,end_s,length_s,",
    "rds-monitor check --pi D393 bits.bin": "RDS OK",
    "rds-monitor json bits.bin": '"value":"D393"',
    "rds-monitor groups bits.bin": "D393 0549 E100 584F",
    "rds list --soft < symbols.bin": "B:0549",
    "rds encode < groups.txt > bits.bin": "",
    "rds-monitor stations capture.wav": "D393",
}
WATCH = "rds-monitor watch stations.toml"


@pytest.fixture
def folder(tmp_path: Path) -> Path:
    """A folder with the files that the commands name, and a PATH with the program and a receiver."""
    (tmp_path / "bin").mkdir()
    (tmp_path / "bin" / "rds").symlink_to(os.path.realpath(PROGRAM))
    (tmp_path / "bin" / "rds-monitor").symlink_to(TOP / "monitor" / "rds-monitor")
    (tmp_path / "bits.bin").write_bytes(STATION.read_bytes())
    bits = numpy.unpackbits(numpy.frombuffer(STATION.read_bytes(), "u1"))
    signs = numpy.cumsum(numpy.append(0, bits)) % 2
    (tmp_path / "symbols.bin").write_bytes((40 * (2 * signs - 1)).astype("i1").tobytes())
    (tmp_path / "groups.txt").write_text("D393 0549 E100 584F\nD393 054A C4E1 4C49\n")
    return tmp_path


def started(folder: Path, command: str) -> "subprocess.Popen[str]":
    words = ["bash", "-o", "pipefail", "-c", command]
    environment = {**os.environ, "PATH": os.pathsep.join([str(folder / "bin"), os.environ["PATH"]])}
    streams = {
        "stdin": subprocess.DEVNULL,
        "stdout": subprocess.PIPE,
        "stderr": subprocess.PIPE,
        "text": True,
    }
    return subprocess.Popen(words, cwd=folder, env=environment, start_new_session=True, **streams)


@pytest.fixture
def done(folder: Path) -> Callable[[str], str]:
    """The output of a command that has to succeed."""

    def run(command: str) -> str:
        process = started(folder, command)
        try:
            out, error = process.communicate(timeout=PATIENCE)
        finally:
            if process.poll() is None:
                os.killpg(process.pid, signal.SIGKILL)
        assert process.returncode == 0, error
        return out

    return run


def test_each_task_is_tried() -> None:
    found = re.findall(r"^\|[^|]*\| `([^`]+)` \|$", section("Common tasks"), re.M)
    assert set(found) == {*TASKS, WATCH}


@pytest.mark.parametrize("command", TASKS)
def test_a_task(command: str, folder: Path, done: Callable[[str], str]) -> None:
    if " report " in command:
        pytest.importorskip("jinja2")
        if not os.path.exists(D3):
            pytest.skip("needs libjs-d3")
    if "capture.wav" in command:
        signal = captured([Sent(100e3, STATION.read_bytes()[:300])], 480000, 1.9, -50)
        (folder / "capture.wav").write_bytes(wav(stored(signal, "s16"), "s16", 480000, channels=2))
    groups, file = (folder / "groups.txt").read_bytes(), command.partition("> ")[2]
    out = done(command).encode()
    written = (folder / file).read_bytes() if file else out
    assert TASKS[command].encode() in written
    assert file != "bits.bin" or written == rds("encode", data=groups)


def test_a_watch(folder: Path) -> None:
    words = json.dumps(["sh", "-c", f"cat '{STATION}'; sleep 600"])
    table = f'folder = "{folder}"\n[[station]]\nname = "Alpha"\ncommand = {words}\n'
    (folder / "stations.toml").write_text(table)
    with started(folder, f"exec {WATCH}") as process:
        try:
            end = time.monotonic() + PATIENCE
            while not (folder / "pages" / "index.html").exists():
                assert time.monotonic() < end and process.poll() is None
                time.sleep(0.05)
            process.terminate()
            assert process.wait(PATIENCE) == 0
        finally:
            if process.poll() is None:
                os.killpg(process.pid, signal.SIGKILL)


SESSIONS = [text for text in re.findall(r"(?:^    .*\n)+", TEXT, re.M) if text.startswith("    $ ")]


def outputs(text: str) -> List[List[str]]:
    """Each command of a session, with the lines that it writes."""
    lines = re.sub(r"\n    > ", "\n", text).replace("\n    ", "\n").strip()
    return [part.rstrip("\n").split("\n") for part in re.split(r"^(?:    )?\$ ", lines, flags=re.M)[1:]]


def test_each_session_is_tried() -> None:
    assert [text.split()[1] for text in SESSIONS] == ["rtl_fm", "rds-monitor", "rds-monitor", "rds"]


@pytest.mark.parametrize("number", [1, 2, 3])
def test_a_session(number: int, folder: Path, done: Callable[[str], str]) -> None:
    """The lines after a `$` are its output."""
    if "pandas" in SESSIONS[number]:
        pytest.importorskip("pandas")
    (folder / "examples").symlink_to(TOP / "examples")
    (folder / "bin" / "python3").write_text(f'#!/bin/sh\nexec {sys.executable} "$@"\n')
    (folder / "bin" / "python3").chmod(0o755)
    for maker in re.findall(r"`(examples/make_day.sh [^`]+)`", TEXT) if "day.bin" in SESSIONS[number] else ():
        done(maker)
    for command, *rows in outputs(SESSIONS[number]):
        assert done(command).splitlines() == rows


def test_the_live_pipe(folder: Path, done: Callable[[str], str]) -> None:
    """Ten seconds of the station as a receiver's MPX, given by a program of the receiver's name. The page has some of the lines."""
    ((first, *rest),) = outputs(SESSIONS[0])
    command, rows = "\n".join([first, *rest[:1]]), rest[1:]
    rate = int(re.search(r"--rate (\d+)", command)[1])
    assert command.startswith(f"rtl_fm -M fm -l 0 -A std -p 0 -s {rate // 1000}k ")
    assert " --raw s16 " in command
    (folder / "mpx.s16").write_bytes(stored(mpx(STATION.read_bytes()[: 10 * 1188 // 8], rate), "s16"))
    receiver = folder / "bin" / "rtl_fm"
    receiver.write_text(f"#!/bin/sh\nexec cat '{folder / 'mpx.s16'}'\n")
    receiver.chmod(0o755)
    lines = done(command).splitlines()
    told = [json.loads(line) for line in lines]
    assert [entry["value"] for entry in told if entry.get("item") == "pi"] == ["D393"]
    assert any(entry.get("item") == "ps" and entry["value"] == "PAXOLIDU" for entry in told)
    assert rows and [line for line in lines if line in rows] == rows
