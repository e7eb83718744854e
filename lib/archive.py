#!/usr/bin/env python3
"""Compiles the library for C for a processor: lib/archive.py amd64|arm64 ARCHIVE

The libraries below rds_c have to be proved: if `rt` built one of them before its sources changed last, `rt lib` proves them. Then rds_c
itself is proved, and compiled with what was built of the others, for the oldest x86-64, or for arm64. Its proof is kept for the other one.
"""

import os
import subprocess
import sys

TOP = os.path.dirname(os.path.dirname(os.path.abspath(__file__)))
sys.path.insert(0, f"{TOP}/tests")

from holes import KIT, RT, below, is_built, of_kit, over, used_by  # noqa: E402

CRATE = "rds_c"
# The seconds that a command may take: to prove all libraries takes half an hour on two processors.
LIMIT = 3600
# The proof of rds_c, which is the same for both processors. `rattle` looks whether it is of the same sources.
KEPT = f"{TOP}/build/kept_{CRATE}"
PROCESSORS = {"amd64": ["--cpu", "x86-64"], "arm64": ["--target", "aarch64-unknown-linux-gnu"]}


def main(processor, archive):
    folder = f"{TOP}/crates/{CRATE}"
    if not all(is_built(name) for name in below(CRATE)):
        status = subprocess.run([RT, "lib"], cwd=folder, stdout=subprocess.DEVNULL, timeout=LIMIT).returncode
        if status:
            return status
    words = [
        f"{KIT}/bin/rattle",
        "build",
        *of_kit(CRATE, {"std", *used_by(CRATE)[1]}),
        *over(CRATE),
        "--crate-type",
        "staticlib",
    ]
    words += [
        "--links",
        f"{CRATE}=",
        "--toolchain",
        f"{KIT}/toolchain",
        "--backend",
        "llvm",
        *PROCESSORS[processor],
    ]
    words += ["--incremental", KEPT, "-o", archive]
    os.makedirs(os.path.dirname(archive), exist_ok=True)
    ran = subprocess.run(
        words, cwd=folder, stdout=subprocess.PIPE, stderr=subprocess.STDOUT, encoding="utf-8", timeout=LIMIT
    )
    print(ran.stdout[-2000:] if ran.returncode else ran.stdout.rstrip("\n").rpartition("\n")[2])
    return ran.returncode


if __name__ == "__main__":
    if len(sys.argv) != 3 or sys.argv[1] not in PROCESSORS:
        sys.exit(__doc__)
    sys.exit(main(sys.argv[1], os.path.abspath(sys.argv[2])))
