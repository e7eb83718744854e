#!/usr/bin/python3
"""Measures figures of the pages. No test, since times depend on the machine and the day.

    tests/measure.py corrections RDS [GROUPS [SEED]]     how often a correction is wrong, at each bit error rate and limit
    tests/measure.py library FOLDER RDS                  how fast the library of lib/make_library.sh is
    tests/measure.py sound [PROGRAMMES [GROUPS]]         how many positions begin a sound range (docs/MODEL.md, Pieces)
"""

from __future__ import annotations

import importlib
import os
import random
import sys
import tempfile
import time
from typing import Callable

import numpy as np
from plain import BLOCK, Recording, Rules, packed
from running import TOP, said, wrote


def corrections(rds: str, groups: str = "100000", seed: str = "1") -> None:
    """Random groups with independent bit errors: each corrected block is compared with the one that was sent."""
    chance = random.Random(int(seed))
    sent = [[chance.getrandbits(16) for _ in range(4)] for _ in range(int(groups))]
    clean = np.unpackbits(np.frombuffer(b"".join(map(packed, sent)), np.uint8))
    print("rate,burst,valid,corrected,lost,wrong,wrong_percent")
    for rate in (0.001, 0.003, 0.01, 0.02, 0.05):
        is_wrong = np.random.default_rng(int(seed)).random(len(clean)) < rate
        data = np.packbits(clean ^ is_wrong).tobytes()
        for burst in range(1, 6):
            counts = dict.fromkeys(("valid", "corrected", "lost", "wrong"), 0)
            for row in said(rds, "list", "--loss", 64, "--burst", burst, data=data).splitlines():
                if row.startswith("group"):
                    count_blocks(row.split(","), sent, counts)
            wrong = 100 * counts["wrong"] / max(1, counts["corrected"])
            print(rate, burst, *counts.values(), f"{wrong:.2f}", sep=",")


def count_blocks(row: list[str], sent: list[list[int]], counts: dict[str, int]) -> None:
    first = next(k for k, block in enumerate(row[4:]) if block != "none")
    group, phase = divmod(int(row[1]) - BLOCK * first, 4 * BLOCK)
    for k, block in enumerate(row[4:]):
        if block != "none":
            kind = "lost" if block == "lost" else "corrected" if "~" in block else "valid"
            counts[kind] += 1
            counts["wrong"] += kind == "corrected" and (
                phase != 0 or int(block[-12:-8], 16) != sent[group][k]
            )


def least(job: Callable[[], object]) -> float:
    """The least time of five."""
    times = []
    for _ in range(5):
        begin = time.perf_counter()
        job()
        times.append(time.perf_counter() - begin)
    return min(times)


def library(folder: str, rds: str) -> None:
    data = 400 * (TOP / "examples/station.bin").read_bytes()
    with tempfile.TemporaryDirectory() as made:
        words = [
            "-O2",
            f"-I{folder}",
            "-o",
            f"{made}/timed",
            TOP / "tests/library/timed.c",
            f"{folder}/librds.a",
        ]
        wrote(os.environ.get("CC", "cc"), *words)
        totals, items, push, whole = said(f"{made}/timed", "calls", data=data).split()
    print(f"a call on 100 bytes: {totals} us by rds_totals, {items} us by rds_items")
    print(f"a push of a second to one of 1,000 streams: {push} us")
    print(f"rds_totals of {len(data)} bytes: {whole} s")
    by_program = least(lambda: wrote(rds, "totals", "--workers", "1", data=data))
    print(f"rds totals --workers 1 of the same, through a pipe: {by_program:.4f} s")
    os.environ["RDS_LIBRARY"] = f"{folder}/librds.so.0"
    sys.path.insert(0, f"{TOP}/bindings/python")
    librds = importlib.import_module("librds")
    followers = [librds.Follower() for _ in range(1000)]
    took = least(lambda: [follower.push(data[:148]) for follower in followers])
    print(f"a push of a second to one of 1,000 streams, by librds: {1000 * took:.1f} us")
    count = len(librds.items_array(data))
    rate = count / least(lambda: librds.items_array(data)) / 1e6
    print(f"librds.items_array: {rate:.2f} million items per second, of {count}")


def programme(groups: int, seed: int) -> Recording:
    """Random groups of one programme, without bit errors: its PI is in block 1, and in block 3 of version B."""
    chance = random.Random(seed)
    pi, lines = chance.getrandbits(16), []
    for _ in range(groups):
        second, third, fourth = (chance.getrandbits(16) for _ in range(3))
        lines.append([pi, second, pi if second >> 11 & 1 else third, fourth])
    return Recording(b"".join(map(packed, lines)))


def sound_positions(recording: Recording, rivals: int, length: int) -> np.ndarray:
    """Whether each position begins a sound range with at most this number of rivals equal modulo 26."""
    places, acquires = np.arange(recording.bits), np.zeros(recording.bits, bool)
    is_rival = (recording.numbers > 0) & (places % BLOCK != BLOCK - 1)
    acquires[recording.acquiring(Rules().reach)] = True

    def sums(counts: np.ndarray) -> np.ndarray:
        up_to = np.concatenate([[0], np.cumsum(counts)])
        return up_to[length:] - up_to[:-length]

    found = sums(is_rival & acquires) == 0
    for phase in range(BLOCK - 1):
        found &= sums(is_rival & (places % BLOCK == phase)) <= rivals
    return found


def sound(programmes: str = "100", groups: str = "400") -> None:
    recordings = [programme(int(groups), seed) for seed in range(int(programmes))]
    for rivals in range(3):
        length = BLOCK * ((rivals + 1) * Rules().bad + 6)
        found = [sound_positions(recording, rivals, length) for recording in recordings]
        print(f"{length} bits, at most {rivals} rivals: {np.mean(np.concatenate(found)):.1%}")


if __name__ == "__main__":
    jobs: dict[str, Callable[..., None]] = dict(corrections=corrections, library=library, sound=sound)
    if not {*sys.argv[1:2]} & {*jobs}:
        sys.exit(__doc__)
    jobs[sys.argv[1]](*sys.argv[2:])
