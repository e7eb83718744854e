"""How tests run programs."""

from __future__ import annotations

import os
import re
import shutil
import subprocess
from pathlib import Path
from typing import Any, NamedTuple

import pytest

TOP = Path(__file__).resolve().parents[1]
# The seconds that one call of a program may take; it takes three or four at most.
LIMIT = int(os.environ.get("LIMIT", 60))


class Ran(NamedTuple):
    """How a run ended, and what it wrote."""

    status: int | None
    out: bytes
    err: bytes


def run(*words: Any, data: bytes = b"", **options: Any) -> Ran:
    """Runs a program on this input; one that hangs has no status."""
    options = {"stdout": subprocess.PIPE, "stderr": subprocess.PIPE, "timeout": LIMIT, **options}
    try:
        given = options if "stdin" in options else {**options, "input": data}
        done = subprocess.run([str(word) for word in words], **given)
    except subprocess.TimeoutExpired:
        return Ran(None, b"", b"it came to no end")
    return Ran(done.returncode, done.stdout, done.stderr)


def wrote(*words: Any, data: bytes = b"", **options: Any) -> bytes:
    """The standard output of a run that has to end in status 0."""
    done = run(*words, data=data, **options)
    text = done.out.decode(errors="replace")[-2000:] + done.err.decode(errors="replace")[-2000:]
    assert done.status == 0, f"{words}: status {done.status}\n{text}"
    return done.out


def said(*words: Any, data: bytes = b"", **options: Any) -> str:
    """The same as text, without its last line end."""
    return wrote(*words, data=data, **options).decode().removesuffix("\n")


def needs(*tools: str) -> None:
    """Skips a test if a tool is missing."""
    for tool in tools:
        if not shutil.which(tool):
            pytest.skip(f"there is no {tool} on the PATH")


def instructions(command: list[str], path: Path) -> int:
    """How many instructions a command takes over a file, by valgrind."""
    counter = ["valgrind", "--tool=cachegrind", "--cache-sim=no", "--cachegrind-out-file=/dev/null"]
    with path.open("rb") as given:
        ended = run(*counter, *command, stdin=given)
    counted = re.search(r" I *refs: +([\d,]+)", ended.err.decode())
    assert ended.status == 0 and counted, f"{command}: {ended.err.decode()[-2000:]}"
    return int(counted[1].replace(",", ""))


def first_program(language: str) -> str:
    """The first program in that language of docs/LIBRARY.md."""
    part = (TOP / "docs" / "LIBRARY.md").read_text().split("\n## A first program", 1)[1].split("\n## ")[0]
    found = re.search(rf"^```{language}\n(.*?)^```$", part, re.M | re.S)
    assert found, f"docs/LIBRARY.md has no first program in {language}"
    return found[1]
