"""What the tests share: the built program and library, and recordings made by it."""

from __future__ import annotations

import os
import subprocess
import sys
import time
from pathlib import Path
from typing import Any, Iterable, Iterator, Sequence

import forked
import pytest
from browser import browser
from hypothesis import HealthCheck, settings

# The same examples each time, however slow the machine is: a gate that fails by chance is none.
settings.register_profile(
    "gate", derandomize=True, database=None, deadline=None, suppress_health_check=[HealthCheck.too_slow]
)
settings.load_profile("gate")

# In another time zone than UTC a local time is seen, in this process and in those that it starts.
os.environ["TZ"] = "XYZ-5:30"
time.tzset()

TOP = Path(__file__).resolve().parents[2]
PROGRAM = os.environ.get("RDS", str(TOP / "build" / "rds"))
os.environ.setdefault("RDS_LIBRARY", str(TOP / "build" / "lib" / "librds.so.0"))
sys.path[:0] = [str(TOP / "monitor"), str(TOP / "bindings" / "python")]
os.environ["PYTHONPATH"] = os.pathsep.join(sys.path[:2])

STATION = TOP / "examples" / "station.bin"
# The command, in a process of its own.
monitor = forked.run
# The command, as a process of its own.
COMMAND = [sys.executable, "-m", "rds_monitor"]


def rds(*words: Any, data: bytes = b"") -> bytes:
    """What the program writes."""
    return subprocess.run([PROGRAM, *map(str, words)], input=data, capture_output=True, check=True).stdout


def ran(words: Sequence[Any], **options: Any) -> "subprocess.CompletedProcess[str]":
    """A process that has ended, and what it wrote."""
    return subprocess.run([*map(str, words)], capture_output=True, text=True, **options)


def encode(groups: Iterable[Sequence[int]]) -> bytes:
    """The bits of groups, given by their four information words."""
    return rds("encode", data="".join("%04X%04X%04X%04X\n" % tuple(group) for group in groups).encode())


def no_librds() -> Any:
    raise ImportError("No module named 'librds'")


@pytest.fixture(params=["librds", "rds"])
def decoder(request: pytest.FixtureRequest, monkeypatch: pytest.MonkeyPatch) -> str:
    """Recordings are decoded by librds, and then by the program, in this process and in those that it starts."""
    monkeypatch.setenv("RDS", PROGRAM if request.param == "rds" else "/none")
    if request.param == "rds":
        monkeypatch.setenv("RDS_LIBRARY", "/none")
        monkeypatch.setattr("rds_monitor.rows.decoders.library", no_librds)
    return str(request.param)


@pytest.fixture(scope="session")
def driver(tmp_path_factory: Any) -> Iterator[Any]:
    """One browser for all tests of pages."""
    with browser(tmp_path_factory.mktemp("browser")) as driver:
        yield driver


@pytest.fixture(scope="session")
def station() -> bytes:
    return STATION.read_bytes()


@pytest.fixture(scope="session")
def station_listing(station: bytes) -> bytes:
    return rds("list", data=station)
