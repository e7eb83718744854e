"""Commands that count blocks or write groups take little longer than `rds list`, and the import of numpy; those that tell contents
take some times as long."""

from __future__ import annotations

from pathlib import Path
from typing import Callable, Dict, List

import pytest
import sent

from conftest import COMMAND, PROGRAM, STATION, encode
from network import Programme
from speed import make_day, measured

# Times the processor seconds of the list, besides the seconds for imports: on a slow machine, those of a second of a recording.
DAY = {"errors": 1.75, "outages": 1.75, "groups": 1.75}
# A third above the goals for a machine with no other work.
CONTENTS = {"json --redsea": 20, "json": 20, "db --name day {folder}/day.db": 15}
# How many times a recording's seconds its listing takes.
LISTING = 3
LIST = [PROGRAM, "list", "--workers", "1"]
IMPORTS, ROUNDS, GROUPS = 0.2, 20, 300000


@pytest.fixture
def folder(tmp_path: Path, monkeypatch: pytest.MonkeyPatch) -> Path:
    # Modules are compiled once, and the output has a buffer, as installed.
    for name in ("PYTHONDONTWRITEBYTECODE", "PYTHONUNBUFFERED"):
        monkeypatch.delenv(name, raising=False)
    monkeypatch.setenv("PYTHONPYCACHEPREFIX", str(tmp_path))
    (tmp_path / "second.bin").write_bytes(STATION.read_bytes()[:148])
    return tmp_path


def check(folder: Path, unit: List[str], most: Dict[str, float], given: str = "day.bin") -> None:
    """By the least of some rounds: it ends with the first one after which the limits hold."""
    asked = {"unit": (unit, "day.bin"), "imports": ([*COMMAND, "errors"], "second.bin")}
    asked.update((command, ([*COMMAND, *command.format(folder=folder).split()], given)) for command in most)
    least: Dict[str, float] = {}
    for _ in range(ROUNDS):
        for name, (words, path) in asked.items():
            seconds, _ = measured(words, folder / path, folder / "out", 1)
            least[name] = min(seconds, least.get(name, 1e9))
        imports = max(IMPORTS, least["imports"])
        if all(least[command] <= times * least["unit"] + imports for command, times in most.items()):
            return
    raise AssertionError(least)


@pytest.mark.alone
def test_a_day_takes_little_longer_than_its_list(folder: Path) -> None:
    make_day(folder / "day.bin")
    check(folder, LIST, DAY)
    measured(LIST, folder / "day.bin", folder / "day.csv", 1)
    check(folder, [*COMMAND, "errors"], {"errors": LISTING}, "day.csv")


def simple(folder: Path) -> bytes:
    """A station that sends other data in each sixth group, and the segments of its RT out of order."""
    programme = Programme(0xD318, "ALPHA", "Now: nothing much")
    return encode(map(programme.group, range(GROUPS)))


def full(folder: Path) -> bytes:
    """PS, AF, EON, TMC, RT+ and CT, with a new RT each three minutes."""
    names = sent.name(b"ALPHA 77", [0xE70A, 0x0B1E, 0x2934, 0x3C47])
    other = [sent.eon_name(b"OTHER %d" % (pi & 7), pi) for pi in range(0xD312, 0xD316)]
    others = [one for words in other for one in (*words, sent.eon(4, 0xE214, words[0][3]))]
    others += [sent.eon(4, 0x1ECD, words[0][3]) for words in other]
    rare = [sent.oda(0xCD46, "8A", 0x66), sent.oda(0x4BD7, "11A"), sent.label(3, 8), sent.label(0, 0xE0)]
    groups: List[sent.Words] = []
    while len(groups) < GROUPS:
        song = len(groups) // 2055
        segments = sent.text(b"Now: artist %04d - title %04d\r" % (song, song * 7 % 10000), song & 1)
        tags = sent.tags(song & 1, 1, (4, 5, 10), (1, 19, 9))
        for turn in range(2055 // 15):
            at = 5 * turn
            groups += [one for k in range(at, at + 5) for one in (names[k % 4], segments[k % len(segments)])]
            groups += [others[2 * turn % len(others)], others[(2 * turn + 1) % len(others)]]
            message = turn // 3
            groups.append(
                sent.group("8A", 8 | song // 20 & 7, message << 11 & 0x3800 | message, 99 * message)
            )
            groups += [
                tags,
                sent.clock(61128, song // 20 % 24, song % 20 * 3, 2) if turn % 46 == 45 else rare[turn % 4],
            ]
    return encode(groups[:GROUPS])


def damaged(folder: Path) -> bytes:
    """The sample, with one bit in 100 wrong."""
    make_day(folder / "day.bin")
    return (folder / "day.bin").read_bytes()[: 13 * GROUPS]


@pytest.mark.alone
@pytest.mark.parametrize("station", [simple, full, damaged])
def test_contents_take_some_times_the_list(folder: Path, station: Callable[[Path], bytes]) -> None:
    (folder / "day.bin").write_bytes(station(folder))
    check(folder, LIST, CONTENTS)
