"""The command in processes of their own, forked from one that has imported it: Python and numpy start once for all of them."""

from __future__ import annotations

import functools
import multiprocessing
import os
import pkgutil
import runpy
import subprocess
import sys
import tempfile
from multiprocessing.connection import Connection
from typing import Any, Dict, Sequence


@functools.cache
def _context() -> Any:
    """Processes that are forked from one that has imported all modules but those that run something."""
    import rds_monitor

    found = multiprocessing.get_context("forkserver")
    names = [one.name for one in pkgutil.walk_packages(rds_monitor.__path__, "rds_monitor.")]
    found.set_forkserver_preload([*(name for name in names if "__main__" not in name), "numpy", "sqlite3"])
    return found


def _command(words: Sequence[str], folder: str, known: Dict[str, str], files: Sequence[Connection]) -> None:
    for number, file in enumerate(files):
        os.dup2(file.fileno(), number)
    # Those that Python opened know what they were opened for.
    sys.stdin, sys.stdout = open(0, closefd=False), open(1, "w", closefd=False)
    sys.stderr = open(2, "w", 1, errors="backslashreplace", closefd=False)
    sys.argv[1:] = words
    os.chdir(folder)
    gone = {*os.environ["PYTHONPATH"].split(":")} - {*known["PYTHONPATH"].split(":")}
    sys.path[:] = [path for path in sys.path if path not in gone]
    os.environ.clear()
    os.environ.update(known)
    runpy.run_module("rds_monitor", run_name="__main__", alter_sys=True)


def run(
    *words: Any, data: bytes = b"", cwd: Any = None, env: Any = os.environ
) -> "subprocess.CompletedProcess[bytes]":
    """The command with these words, as `subprocess.run` does it. Python itself has started in the usual environment."""
    reading, writing = os.pipe()
    with tempfile.TemporaryFile() as out, tempfile.TemporaryFile() as err:
        files = [Connection(file) for file in (reading, os.dup(out.fileno()), os.dup(err.fileno()))]
        given = [str(word) for word in words], str(cwd or os.getcwd()), dict(env), files
        process = _context().Process(target=_command, args=given)
        process.start()
        for file in files:
            file.close()
        try:
            with open(writing, "wb", 0) as pipe:
                while data:
                    data = data[pipe.write(data) :]
        except BrokenPipeError:
            pass
        process.join()
        said = [(file.seek(0), file.read())[1] for file in (out, err)]
    return subprocess.CompletedProcess(["rds-monitor", *words], process.exitcode, *said)
