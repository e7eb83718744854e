"""The Python of the tree: types, names and form; and rds-monitor as `make install-monitor` installs it."""

from __future__ import annotations

import sys
from pathlib import Path

import pytest
from running import TOP, run, wrote

CHECKS = {
    "types": "mypy --cache-dir build/mypy monitor/rds_monitor bindings/python/librds tests",
    "names": "pyflakes monitor bindings/python packaging tests",
    "form": "black --check --quiet bindings lib monitor packaging tests",
}


@pytest.mark.parametrize("words", CHECKS.values(), ids=CHECKS)
def test_python(words: str) -> None:
    tool = words.split()[0]
    if run(sys.executable, "-c", f"import {tool}").status:
        pytest.skip(f"Python has no {tool}")
    ended = run(sys.executable, "-m", *words.split(), cwd=TOP, timeout=300)
    assert ended.status == 0, (ended.out + ended.err).decode()


def test_the_installed_rds_monitor(rds: str, librds: str, tmp_path: Path) -> None:
    zsh = "ZSH_COMPLETIONS=/usr/share/zsh/vendor-completions"
    wrote("make", "-s", "install-monitor", f"DESTDIR={tmp_path}", "PREFIX=/usr", zsh, cwd=TOP)
    wrote(tmp_path / "usr/bin/rds-monitor", "errors", TOP / "examples" / "station.bin")
