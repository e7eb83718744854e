"""Random recordings, lines of groups and streams by the program, beside what tests/plain.py writes of them.

For each seed making.py makes a recording, and lines of groups. The program scans, lists and totals the recording by rules, gaps, cuttings and
workers that are drawn from the seed. It follows it in chunks of random lengths, and its beginning byte by byte; and it encodes the lines. Each
seed has a byte that is no digit and no blank, which is refused. Symbols of other recordings are listed by plain_soft.py. Streams are parts of a station from any bit on, with wrong bits and stretches
that say nothing; at every tenth seed the pipe is slow. A run that differs is shown by its seed and its words.

The program stores the rows of groups eight bytes at a time, and plain.py writes them by Python's csv module: all forms of each field occur, and
places of 2 to 11 digits, as the first group is found at place 26 or later.
"""

from __future__ import annotations

import os
import random
import re
import subprocess
import time
from concurrent.futures import ThreadPoolExecutor
from functools import cache, lru_cache
from pathlib import Path
from typing import Callable

import making
import numpy as np
import plain
import plain_soft
import pytest
from running import LIMIT, Ran, run

Cases = Callable[[int], None]
# How many seeds there are, and how many runs each seed of a recording has. test_tests.py has wrong programs, of which the first five
# recordings and the first thirty streams see each.
SEEDS, STREAMS, SOFT, RUNS = 60, 1000, 100, 17


@lru_cache(4)
def recorded(held: bytes, bits: int | None, gaps: plain.Gaps) -> plain.Recording:
    """A recording, which the runs of a seed share."""
    return plain.Recording(held, bits, gaps)


def wanted(words: list[str], held: bytes) -> bytes | None:
    """What plain.py writes of these words."""
    parsed = plain.arguments().parse_args(words)
    if parsed.job == "encode":
        return plain.text_of(parsed, held)
    recording = recorded(held, parsed.bits, tuple(parsed.gaps))
    return plain.listing(parsed.job, recording, plain.rules_of(parsed)).encode()


def hand_on(pipe: int, held: bytes, most: int, pause: float, chance: random.Random) -> None:
    """Writes the bytes to the pipe in chunks of up to `most` bytes."""
    place = 0
    try:
        while place < len(held):
            after = place + chance.randint(0 if most > 1 else 1, most)
            os.write(pipe, held[place:after])
            place = after
            time.sleep(chance.uniform(0, pause))
    except BrokenPipeError:
        pass
    finally:
        os.close(pipe)


def streamed(rds: str, words: list[str], held: bytes, most: int, pause: float, chance: random.Random) -> Ran:
    """How a job ends whose input comes through a pipe, and what it gives."""
    read_end, write_end = os.pipe()
    with subprocess.Popen(
        [rds, *words], stdin=read_end, stdout=subprocess.PIPE, stderr=subprocess.PIPE
    ) as child:
        os.close(read_end)
        with ThreadPoolExecutor(1) as hand:
            hand.submit(hand_on, write_end, held, most, pause, chance)
            try:
                text, said = child.communicate(timeout=LIMIT)
            except subprocess.TimeoutExpired:
                child.kill()
                return Ran(None, b"", b"it came to no end")
    return Ran(child.returncode, text, said)


class Trial:
    """The runs of one seed, and those that differ."""

    def __init__(self, rds: str, seed: int) -> None:
        self.rds, self.seed, self.chance = rds, seed, random.Random(f"differential {seed}")
        self.runs = 0
        self.differing: list[str] = []

    def compare(self, given: Ran, right: Ran, text: str) -> None:
        self.runs += 1
        self.differing += [] if given == right else [f"seed {self.seed}: rds {text}"]

    def compare_run(self, words: list[str], held: bytes, right: Ran) -> None:
        self.compare(run(self.rds, *words, data=held), right, " ".join(words))

    def try_all(self) -> Trial:
        self.try_recording(making.recording(self.seed))
        for words in (["encode"], ["encode", "--hex"]):
            text = wanted(words, making.lines(self.seed))
            right = Ran(1, b"", b"refused 12 GroupText\n") if text is None else Ran(0, text, b"")
            self.compare_run(words, making.lines(self.seed), right)
        # a byte that is no digit and no blank, before a group and after digits
        byte, digits = bytes([making.STRANGE[self.seed % len(making.STRANGE)]]), b"1234254052445320"
        self.compare_run(["encode"], byte + digits, Ran(1, b"", b"refused 12 GroupText\n"))
        self.compare_run(["scan", "--hex"], digits + byte, Ran(1, b"", b"refused 11 HexText\n"))
        return self

    def try_recording(self, held: bytes) -> None:
        """A scan, two lists and the totals, each of the latter by two crews, and streams; some from digits."""
        chance = self.chance
        bits = max(0, 8 * len(held) - chance.choice([0, 0, chance.randint(0, 40)]))
        source = (["--bits", str(bits)] if bits < 8 * len(held) else []) + making.gaps(chance, bits)
        for job in ("scan", "list", "list", "totals"):
            words = [job, *source, *(making.rules(chance) if job != "scan" else [])]
            right = Ran(0, wanted(words, held) or b"", b"")
            for _ in range(1 if job == "scan" else 2):
                crew = making.crew(chance)[0 if job != "scan" else 2 :]
                is_hex = chance.random() < 0.2
                text = making.as_digits(chance, held) if is_hex else held
                self.compare_run([*words, *crew, *(["--hex"] if is_hex else [])], text, right)
        for job, is_hex in (("follow", False), ("totals", False), ("totals", True)):
            self.try_stream(job, held, source, chance.randint(2, 10_000), is_hex)
            self.try_stream(job, held[:2000], making.gaps(chance, 8 * len(held[:2000])), 1, is_hex)

    def try_stream(self, job: str, held: bytes, source: list[str], most: int, is_hex: bool) -> None:
        """A job by one worker, whose input comes in chunks of limited size."""
        words = source + making.rules(self.chance)
        right = Ran(0, wanted(["list" if job == "follow" else job, *words], held) or b"", b"")
        own = [job, *([] if job == "follow" else ["--workers", "1"]), *(["--hex"] if is_hex else []), *words]
        text = making.as_digits(self.chance, held) if is_hex else held
        given = streamed(self.rds, own, text, most, 0, self.chance)
        self.compare(given, right, f"{' '.join(own)}, chunks of up to {most} bytes")


@pytest.mark.parametrize("first", range(1, SEEDS + 1, 10))
def test_recordings_and_lines(rds: str, first: int, cases: Cases) -> None:
    trials = [Trial(rds, seed).try_all() for seed in range(first, first + 10)]
    assert [text for trial in trials for text in trial.differing] == []
    assert {trial.runs for trial in trials} == {RUNS}
    cases(RUNS * len(trials))


BLOCKS = [f"{offset}:{word}" for offset in ("A", "B", "C", "Cx", "D") for word in ("####", "####~#######")]
FORMS = {*BLOCKS, "none", "lost", "A", "A!", "B", "B!", "?", "-", *map(str, range(16))}


def test_every_form_of_a_field(rds: str) -> None:
    """All occur in the groups of the first recordings, each hexadecimal digit as #."""
    seen: set[str] = set()
    for seed in range(1, 41):
        data = making.recording(seed)
        listed = wanted(["list"], data) or b""
        assert run(rds, "list", data=data) == (0, listed, b""), f"seed {seed}"
        fields = re.findall(r"^group,\d+,(.*)$", listed.decode(), re.M)
        seen |= {*re.sub(r"(?<=[:~])\w+", lambda word: "#" * len(word[0]), ",".join(fields)).split(",")}
    assert seen == FORMS


# Bytes of zeros have no valid window: they only move what comes after them, from one prefix on.
PREFIX = 8


@pytest.mark.parametrize("digits", range(2, 12))
def test_places_of_each_length(rds: str, tmp_path: Path, digits: int) -> None:
    words = ([0xD393, word, 0xABCD, 0x0123] for word in range(0, 65536, 257))
    zeros = 10 ** (digits - 1) // 8 if digits > 2 else 0
    data = bytes(PREFIX if zeros else 0) + b"".join(map(plain.packed, words)) + making.recording(2)
    with (tmp_path / "in").open("w+b") as file:
        # the zeros are a hole
        file.seek(zeros)
        file.write(data)
        file.seek(0)
        out = run(rds, "follow", stdin=file).out
    row = re.compile(r"^(acquired|group|lost),(\d+)", re.M)
    listed = (wanted(["list"], data) or b"").decode()
    moved = row.sub(lambda found: f"{found[1]},{int(found[2]) + 8 * zeros}", listed)
    assert out.decode() == moved and re.search(rf"^(group|acquired),\d{{{digits}}},", moved, re.M)


def test_two_seeds_differ() -> None:
    assert making.recording(1) != making.recording(2) and making.lines(1) != making.lines(2)


# ---- streams


@cache
def station() -> bytes:
    """The bytes of a station whose words are random, and whose groups have one programme."""
    chance = random.Random(0)
    return b"".join(plain.packed([0xD393, *(chance.getrandbits(16) for _ in range(3))]) for _ in range(4000))


def part_of_station(chance: random.Random) -> bytes:
    """A part of the station from any bit on, damaged."""
    length = chance.randint(0, 30_000 if chance.random() < 0.05 else 600)
    start = 8 * chance.randint(0, len(station()) - length - 1) + chance.randrange(8)
    sent = int.from_bytes(station()[start // 8 : start // 8 + length + 1], "big")
    held = bytearray((sent >> (8 - start % 8) & (1 << 8 * length) - 1).to_bytes(length, "big"))
    for _ in range(chance.choice([0, 0, length // 200, length // 20, length // 4])):
        place = chance.randrange(8 * length)
        held[place // 8] ^= 0x80 >> place % 8
    for _ in range(chance.choice([0, 0, 1, 2])):
        at = chance.randint(0, length)
        held[at : at + 40] = chance.randbytes(min(40, length - at))
    return bytes(held)


def some_gaps(chance: random.Random, bits: int) -> list[str]:
    """The words of some gaps within `bits` bits, or none."""
    places = (
        sorted(chance.sample(range(bits + 1), 2 * chance.choice([0, 0, 0, 1, 3, 12]))) if bits > 30 else []
    )
    pairs = ",".join(f"{start}-{end}" for start, end in zip(places[::2], places[1::2]))
    return ["--gaps", pairs] if places else []


def difference(rds: str, seed: int) -> str:
    """The words of a stream that differs, or nothing."""
    chance = random.Random(seed)
    held = part_of_station(chance)
    bits = max(0, 8 * len(held) - chance.choice([0, 0, chance.randrange(8), chance.randrange(100)]))
    words = making.rules(chance) + some_gaps(chance, bits)
    words += ["--bits", str(bits)] if bits < 8 * len(held) else []
    most = 1 if len(held) < 300 and chance.random() < 0.5 else chance.randint(2, 10_000)
    workers = ["--workers", str(chance.randint(1, 40))] if seed % 2 else []
    given = streamed(rds, ["follow", *words, *workers], held, most, 0.001 if seed % 10 == 0 else 0, chance)
    is_right = given == (0, wanted(["list", *words], held), b"")
    return "" if is_right else f"seed {seed}: rds follow {' '.join(words)}, chunks of up to {most} bytes"


@pytest.mark.parametrize("first", range(1, STREAMS + 1, 100))
def test_streams(rds: str, first: int, cases: Cases) -> None:
    seeds = range(first, first + 100)
    assert [text for text in (difference(rds, seed) for seed in seeds) if text] == []
    cases(len(seeds))


# ---- symbols, and soft decisions


def soft_words(chance: random.Random, margin: int, bits: int, count: int) -> list[str]:
    words = ["--soft", "--margin", str(margin), *making.rules(chance)[2:], *making.gaps(chance, bits)]
    return words + (["--bits", str(bits)] if bits < count else [])


def soft_difference(rds: str, seed: int) -> list[str]:
    """The words of runs over symbols that differ. Most have symbols of which seven are too many to flip."""
    chance, numbers = random.Random(f"soft {seed}"), np.random.default_rng(seed)
    any_number = seed % 10 == 0
    held = making.recording(seed)[: 200 if any_number else 1500]
    least = chance.choice([0, 1, 12]) if any_number else plain_soft.SEVEN_ARE_TOO_MANY
    cut = chance.choice([None, None, chance.randrange(60)])
    symbols = plain_soft.random_symbols(numbers, held, least)[:cut]
    count = max(0, len(symbols) - 1)
    bits, margin = max(0, count - chance.choice([0, 0, chance.randint(0, 40)])), chance.randint(1, 32)
    words = soft_words(chance, margin, bits, count)
    differing = []
    for job in ("list", "totals"):
        parsed = plain.arguments().parse_args([job, *words[3:]])
        recording = plain_soft.Symbols(symbols, bits, tuple(parsed.gaps))
        right = plain_soft.listing(job, recording, plain.rules_of(parsed), margin, any_number).encode()
        given = run(rds, job, *words, *making.crew(chance), data=symbols)
        differing += [] if given == (0, right, b"") else [f"seed {seed}: rds {job} {' '.join(words)}"]
    return differing


@pytest.mark.parametrize("first", range(1, SOFT + 1, 25))
def test_symbols(rds: str, first: int, cases: Cases) -> None:
    seeds = range(first, first + 25)
    assert [text for seed in seeds for text in soft_difference(rds, seed)] == []
    cases(2 * len(seeds))


# ---- totals by several workers, who have 64 KiB each at least


def long_recording(chance: random.Random) -> bytes:
    """Parts of a station, the zero group in any phase, and noise, of 128 KiB or more together."""
    held = bytearray()
    while len(held) < chance.choice([140_000, 300_000, 700_000]):
        length, kind = chance.randint(1, 50_000), chance.random()
        if kind < 0.6:
            start = chance.randint(0, len(station()) - length)
            part = bytearray(station()[start : start + length])
            for _ in range(chance.choice([0, length // 200, length // 20])):
                place = chance.randrange(8 * length)
                part[place // 8] ^= 0x80 >> place % 8
        elif kind < 0.8:
            part = bytearray((plain.packed([0, 0, 0, 0]) * (length // 13 + 1))[chance.randrange(13) :])
        else:
            part = bytearray(chance.randbytes(length))
        held += part
    return bytes(held)


@pytest.mark.parametrize("seed", range(1, 13))
def test_long_totals(rds: str, seed: int, cases: Cases) -> None:
    chance = random.Random(seed)
    held = long_recording(chance)
    words = ["totals", *making.rules(chance), *some_gaps(chance, 8 * len(held))]
    right = wanted(words, held)
    for workers in {2, 3, 4, chance.randint(5, 256)}:
        pipe = streamed(rds, [*words, "--workers", str(workers)], held, 100_000, 0, chance)
        assert pipe == (0, right, b""), f"{' '.join(words)} --workers {workers}"
    cases(4)
