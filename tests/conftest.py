"""The runner of all that is no proof: what the tests are given, how many there have to be, and which run alone."""

from __future__ import annotations

import json
import os
import re
import shutil
import subprocess
import sys
import tempfile
import time
from pathlib import Path
from typing import Any, Callable

import pytest
from packages import AS_ROOT, TOOLS, Packages
from running import needs

TOP = Path(__file__).resolve().parents[1]
COUNTS = TOP / "tests" / "counts.tsv"
# The tests that a session leaves out, since they run alone after it.
LEFT_OUT = pytest.StashKey[int]()
FILES = pytest.StashKey[str]()
# names the file to which the session of these tests writes its counts
TOLD = "RDS_COUNTS_OF_ALONE"
BUILT = [TOP / "crates" / "rds" / "out" / "rds", TOP / "build" / "rds"]

# monitor/tests take the program and the library from here
os.environ.setdefault("RDS", str(next((path for path in BUILT if path.exists()), BUILT[-1])))
os.environ.setdefault("RDS_LIBRARY", str(TOP / "build" / "lib" / "librds.so.0"))


# each option, its usual value and its help
OPTIONS = {
    "--rds": (os.environ["RDS"], "the program; for monitor/tests too, name it in RDS"),
    "--lib": (os.path.dirname(os.environ["RDS_LIBRARY"]), "the folder that lib/make_library.sh made"),
    "--arm64": (f"{TOP}/build/lib-arm64", "the same for arm64"),
    "--bench": (f"{TOP}/crates/rds_bench/out/rds_bench", "the program rds_bench"),
}


def pytest_addoption(parser: pytest.Parser) -> None:
    for name, (usual, text) in OPTIONS.items():
        parser.addoption(name, default=usual, help=text)
    parser.addoption("--write-counts", action="store_true", help="write tests/counts.tsv by this run")


# ---- what tests are given


def existing(request: pytest.FixtureRequest, option: str, name: str, cure: str) -> str:
    """The path that an option names, or a file in it; a test that needs it fails if it is not there."""
    path = request.config.getoption(option) + name
    if not os.path.exists(path):
        pytest.fail(f"{path} is not there: {cure}, {option} names another", pytrace=False)
    return os.path.realpath(path)


@pytest.fixture(scope="session")
def rds(request: pytest.FixtureRequest) -> str:
    """The path of the program."""
    return existing(request, "--rds", "", "`make` builds it")


@pytest.fixture(scope="session")
def librds(request: pytest.FixtureRequest) -> str:
    """The folder of the library for C: librds.a, librds.so.0 and rds.h."""
    return os.path.dirname(existing(request, "--lib", "/librds.so.0", "`make lib` builds it"))


@pytest.fixture(scope="session")
def librds_arm64(request: pytest.FixtureRequest) -> str | None:
    """The folder of the library for arm64, if it was built."""
    folder = request.config.getoption("--arm64")
    return os.path.realpath(folder) if os.path.exists(f"{folder}/librds.a") else None


@pytest.fixture(scope="session")
def rds_bench(request: pytest.FixtureRequest) -> str:
    """The path of rds_bench."""
    return existing(request, "--bench", "", "`rt run` in crates/rds_bench builds it")


@pytest.fixture(scope="session")
def station() -> bytes:
    """The sample: 1,923 groups of a station."""
    return (TOP / "examples" / "station.bin").read_bytes()


@pytest.fixture(scope="session")
def packages(
    rds: str, librds: str, librds_arm64: str | None, tmp_path_factory: pytest.TempPathFactory
) -> Packages:
    """The Debian packages, and a root folder in which they are installed."""
    needs(*TOOLS, *AS_ROOT)
    return Packages(rds, librds, librds_arm64, tmp_path_factory.mktemp("packages"))


@pytest.fixture
def cases(record_property: Callable[[str, int], None]) -> Callable[[int], None]:
    """Notes how many cases a test compares, if there are several."""
    return lambda count: record_property("cases", count)


# ---- what runs alone, after all other tests


@pytest.hookimpl(tryfirst=True)
def pytest_cmdline_main(config: pytest.Config) -> None:
    if getattr(config.option, "numprocesses", None):
        config.option.dist = "loadgroup"


def pytest_configure(config: pytest.Config) -> None:
    """The tests' files are in memory if there is room: some tests wait for each of their writes."""
    if hasattr(config, "workerinput"):
        # a worker is told only the words of the command line
        config.option.loadgroup = True
    if hasattr(config, "workerinput") or config.option.basetemp:
        return
    shared = Path("/dev/shm")
    has_room = shared.is_dir() and os.access(shared, os.W_OK) and shutil.disk_usage(shared).free > 2 * 10**9
    config.stash[FILES] = tempfile.mkdtemp(prefix="rds-tests-", dir=shared if has_room else None)
    config.option.basetemp = f"{config.stash[FILES]}/files"


def pytest_unconfigure(config: pytest.Config) -> None:
    if folder := config.stash.get(FILES, None):
        shutil.rmtree(folder, ignore_errors=True)


@pytest.hookimpl(trylast=True)
def pytest_collection_modifyitems(config: pytest.Config, items: list[pytest.Item]) -> None:
    alone = [item for item in items if item.get_closest_marker("alone")]
    items[:] = [item for item in items if item not in alone]
    if hasattr(config, "workerinput"):
        config.stash[LEFT_OUT] = len(alone)
    else:
        items += alone


@pytest.hookimpl(optionalhook=True)
def pytest_testnodedown(node: Any) -> None:
    node.config.stash[LEFT_OUT] = node.workeroutput.get("left_out", 0) if hasattr(node, "workeroutput") else 0


def pytest_sessionfinish(session: pytest.Session) -> None:
    if hasattr(session.config, "workeroutput"):
        session.config.workeroutput["left_out"] = session.config.stash.get(LEFT_OUT, 0)


def run_alone(config: pytest.Config) -> tuple[int, dict[str, list[int]]]:
    """Runs the tests that the workers left out: the exit status, and their counts."""
    chosen = [f"{name}={config.getoption(name)}" for name in OPTIONS]
    words = [sys.executable, *"-m pytest -q -n 0 -m alone -k".split(), config.option.keyword, *chosen]
    with tempfile.NamedTemporaryFile() as told:
        variables, folder = {**os.environ, TOLD: told.name}, config.invocation_params.dir
        status = subprocess.run(words + config.args, cwd=folder, env=variables).returncode
        return status, json.load(told)


# ---- how many tests there have to be


# The start of a reason to skip for which no tool is a cure.
CANNOT = "this machine cannot"


def is_excused(reason: str) -> bool:
    """Whether the machine cannot do what a skipped test needs, or cannot have a tool that the reason names."""
    lacking = os.environ.get("RDS_LACKING", "").split()
    return CANNOT in reason or any(
        re.search(rf"(?<![\w-]){re.escape(name)}(?![\w-])", reason) for name in lacking
    )


def counts_of(stats: dict[str, list[Any]]) -> dict[str, list[int]]:
    """How many cases of each file passed, and how many tests were skipped, some of them with a good excuse. A test may note more cases
    than one."""
    counts: dict[str, list[int]] = {}
    for place, outcome in enumerate(("passed", "skipped")):
        for report in stats.get(outcome, []):
            cases = dict(getattr(report, "user_properties", ())).get("cases", 1)
            found = counts.setdefault(report.nodeid.partition("::")[0], [0, 0, 0])
            found[place] += cases
            found[2] += outcome == "skipped" and is_excused(report.longrepr[2])
    return counts


def wanted_counts() -> dict[str, list[int]]:
    """The rows of the table."""
    rows = [line.split("\t") for line in COUNTS.read_text().splitlines()[1:]]
    return {path: [int(passed), int(skipped)] for path, passed, skipped in rows}


def is_short(counts: list[int], wanted: list[int]) -> bool:
    """Whether fewer passed than have to, or if all tools are there, more were skipped without an excuse."""
    passed, skipped, excused = counts
    if not os.environ.get("RDS_ALL_TOOLS"):
        return passed + skipped < sum(wanted)
    # How many cases an excused test has is not known.
    return skipped - excused > wanted[1] or passed < wanted[0] and not excused


def missing_tests(config: pytest.Config, counts: dict[str, list[int]]) -> list[str]:
    """A line for each file of which fewer tests passed than the table has."""
    wanted, faults = wanted_counts(), []
    is_whole = {TOP / "tests", TOP / "monitor/tests"} <= {Path(arg).resolve() for arg in config.args}
    for path in sorted({*counts, *wanted} if is_whole else {*counts} & {*wanted}):
        found = counts.get(path, [0, 0, 0])
        if path not in wanted:
            faults.append(f"{path} has no row: it has {found[0]} passed and {found[1]} skipped")
        elif is_short(found, wanted[path]):
            faults.append(
                f"{path}: {found[0]} passed and {found[1]} skipped, where there were {wanted[path]}"
            )
    return faults


def write_counts(counts: dict[str, list[int]]) -> None:
    """Writes the table, in which these counts replace those of their files."""
    rows = sorted({**wanted_counts(), **counts}.items())
    lines = [f"{path}\t{passed}\t{skipped}" for path, (passed, skipped, *_) in rows if (TOP / path).exists()]
    COUNTS.write_text("\n".join(["file\tpassed\tskipped", *lines, ""]))


def is_part(config: pytest.Config) -> bool:
    """Whether files were run in part."""
    option = config.option
    chosen = option.keyword or option.markexpr or option.collectonly or option.maxfail
    return bool(chosen) or any("::" in arg for arg in config.args)


def pytest_terminal_summary(terminalreporter: Any, config: pytest.Config) -> None:
    counts, status = counts_of(terminalreporter.stats), 0
    if TOLD in os.environ:
        Path(os.environ[TOLD]).write_text(json.dumps(counts))
        return
    if config.stash.get(LEFT_OUT, 0):
        status, of_alone = run_alone(config)
        # a file may have tests that run alone and others
        for path, more in of_alone.items():
            counts[path] = [sum(pair) for pair in zip(counts.get(path, [0, 0, 0]), more)]
    if config.getoption("--write-counts"):
        write_counts(counts)
    faults = [] if is_part(config) else missing_tests(config, counts)
    for fault in faults:
        terminalreporter.write_line(f"tests/counts.tsv: {fault}", red=True)
    session, is_alone = terminalreporter._session, config.stash.get(LEFT_OUT, 0)
    if status or faults:
        session.exitstatus = pytest.ExitCode.TESTS_FAILED
    elif is_alone and session.exitstatus == pytest.ExitCode.NO_TESTS_COLLECTED:
        session.exitstatus = pytest.ExitCode.OK
    spent = time.process_time() + sum(os.times()[2:4])
    passed = sum(count for count, *_ in counts.values())
    terminalreporter.write_line(f"{passed} cases, {spent:.0f} processor seconds")
