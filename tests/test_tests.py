"""The tests themselves: each is run over a wrong program, page or header, and has to see it."""

from __future__ import annotations

import importlib
import inspect
import os
import re
import shutil
import sys
import time
from pathlib import Path
from typing import Any, Callable

import plain
import pytest
import running
import test_differential
import test_examples
import test_growth
import test_header
import test_library
import test_listings
import test_package
import test_pages
import test_program
import test_progress
import test_refusals
import test_work
from inputs import make_refuse
from running import TOP, Ran, run, said, wrote

# Wrong programs, in bash; $rds is the right one.
PROGRAMS = {
    "silent": "cat >/dev/null",
    "one_byte_short": '"$rds" "$@" | head -c -1; exit "${PIPESTATUS[0]}"',
    "content": '"$rds" "$@"; exit 0',
    "noisy": 'echo a word >&2; exec "$rds" "$@"',
    "hanging": "exec sleep 1000",
    "misprinting": '"$rds" "$@" | sed "s/default: 3/default: 4/"; exit "${PIPESTATUS[0]}"',
    "other_status": '"$rds" "$@"; exit 3',
    # the bursts of the next limit
    "other_rules": """is_told=
        for ((k = 1; k < $#; k++)); do
            [ "${!k}" != --burst ] || { is_told=1 && set -- "${@:1:k}" $(((${@:k+1:1} + 1) % 6)) "${@:k+2}"; }
        done
        case ${1:-}$is_told in list | totals | follow) set -- "$@" --burst 3 ;; esac
        exec "$rds" "$@" """,
    # only for the last number of workers or pieces
    "last_number": """case $* in
        *'--loss 1 --workers 256' | *'--reach '?' --workers 2 --pieces 208') "$rds" "$@" | head -c -1 ;;
        *) exec "$rds" "$@" ;; esac""",
    "crew_differs": """[[ " $* " == *" --workers 1 "* || "$*" != *--workers* ]] && exec "$rds" "$@"
        "$rds" "$@" | head -c -1""",
    "one_worker_more": """for ((k = 1; k < $#; k++)); do
            [ "${!k}" != --workers ] || set -- "${@:1:k}" $((${@:k+1:1} + 1)) "${@:k+2}"
        done
        exec "$rds" "$@" """,
    "without_gaps": """for ((k = 1; k < $#; k++)); do
            [ "${!k}" != --gaps ] || set -- "${@:1:k-1}" "${@:k+2}"
        done
        exec "$rds" "$@" """,
    "hex_short": '[[ $1 != encode && " $* " == *" --hex "* ]] || exec "$rds" "$@"; "$rds" "$@" | head -c -1',
    "encode_short": '[ "$1" = encode ] || exec "$rds" "$@"; "$rds" "$@" | head -c -1; exit "${PIPESTATUS[0]}"',
    "encode_status": '"$rds" "$@" && [ "$1" != encode ]',
    "takes_any_line": '[ "$1" != encode ] || { "$rds" "$@"; exit 0; }; exec "$rds" "$@"',
    "progress_short": '[[ $* == *--progress* ]] || exec "$rds" "$@"; "$rds" "$@" | head -c -1; exit "${PIPESTATUS[0]}"',
    "no_progress": '"$rds" "$@" 2>/dev/null',
    # a time that grows with the cube of the input; slow from the second size on, or only at the third
    "cubed": """size=$(($(stat -L -c %s /dev/stdin) / 30000))
        for ((k = 0; k < size ** 3; k++)); do :; done
        exec "$rds" "$@" """,
    "slow_second": """(( $(stat -L -c %s /dev/stdin) < 500000 )) || for ((k = 0; k < 80000; k++)); do :; done
        exec "$rds" "$@" """,
    "slow_third": """(( $(stat -L -c %s /dev/stdin) < 2000000 )) || for ((k = 0; k < 80000; k++)); do :; done
        exec "$rds" "$@" """,
}
# Numbers of both kinds of progress lines are too high.
TOO_HIGH = """exec "$rds" "$@" 2> >(exec python3 -c 'import os, re
while said := os.read(0, 4096):
    os.write(2, re.sub(rb"{numbers}", lambda found: b"%d" % (int(found[0]) + {more}), said))')"""
PROGRAMS |= {
    "later": TOO_HIGH.format(more=2, numbers=r"(?<=bits, )\d+(?= s left)|(?<=pieces, )\d+(?= s left)"),
    "beyond": TOO_HIGH.format(more=9, numbers=r"(?<=of )\d+(?= %| pieces)"),
    "ahead": TOO_HIGH.format(more=9, numbers=r"(?<=written )\d+(?= MB)|(?<=decoded )\d+(?= of)"),
}


def script(path: Path, text: str) -> Path:
    """A program of this text."""
    path.parent.mkdir(parents=True, exist_ok=True)
    path.write_text(text)
    path.chmod(0o755)
    return path


@pytest.fixture
def wrong(rds: str, tmp_path: Path) -> Callable[[str], str]:
    """Makes a wrong program by its name."""
    return lambda name: str(script(tmp_path / name, f"#!/bin/bash\nrds={rds}\n{PROGRAMS[name]}\n"))


Cases = Callable[[int], None]


def note(*_: Any) -> None:
    """Notes no count of cases."""


def fails(text: str, test: Callable[..., Any], *arguments: Any, **named: Any) -> None:
    """The test has to fail over these arguments, and to say the text."""
    with pytest.raises((Exception, pytest.fail.Exception)) as failure:
        test(*arguments, **named)
    assert re.search(text, str(failure.value)), failure.value


# ---- wrong programs


def each_number(words: str) -> Callable[[str, Path], object]:
    return lambda rds, _: test_program.test_each_number_makes_the_same(rds, words)


def table(rds: str) -> None:
    for row in test_program.ROWS:
        test_program.test_table(rds, row)


def pages(rds: str) -> None:
    faults = test_pages.Faults()
    test_pages.test_values_of_options(test_pages.Program(rds), faults)
    assert not faults, faults


def refused(rds: str, folder: Path) -> None:
    test_refusals.test_refused(rds, make_refuse(folder), folder, test_refusals.JOBS[5], "read", note)


def work(rds: str, folder: Path, job: str) -> None:
    line = next(line for line in test_work.lines() if line.job == job)
    test_work.test_job(test_work.Work(rds, folder), line, note)


def growth(rds: str, folder: Path) -> None:
    inputs = test_growth.Inputs(folder)
    for job in ("station scan", "hiss scan", "losing scan"):
        test_growth.test_growth(rds, inputs, job)


def ways(rds: str, folder: Path, name: str, *both: str) -> None:
    test_growth.test_two_ways(rds, test_growth.Inputs(folder), name, "9", *both)


def differ(rds: str) -> None:
    for seed in range(1, 6):
        trial = test_differential.Trial(rds, seed).try_all()
        assert not trial.differing, f"'{len(trial.differing)} of {trial.runs}' {trial.differing}"


def stream(rds: str) -> None:
    for seed in range(1, 31):
        assert not (text := test_differential.difference(rds, seed)), text


def progress(rds: str) -> None:
    faults = test_progress.try_rows(rds)
    assert not faults, faults


def recordings(rds: str) -> None:
    """The listings of a wrong program are not those of plain.py, by which the others are compared."""
    for seed in range(20):
        call = test_library.recording(seed)
        items = [*plain.report(plain.Recording(call.data, call.bits, call.gaps), call.rules)]
        listed = wrote(rds, "list", *test_library.words_of(call), data=call.data).decode()
        assert test_library.listing(items, plain.totals_of(items)) == listed


# The wrong programs, what the failure says, and the test that has to see each, called with the program and a folder.
SAMPLE = test_growth.STATION
DIFFERING = "silent one_byte_short other_rules without_gaps"
OF_LINES = "hex_short encode_short encode_status takes_any_line"
SEEN: list[tuple[str, str, Callable[[str, Path], object]]] = [
    ("silent one_byte_short content other_rules noisy", "", lambda rds, _: table(rds)),
    ("hanging", "", lambda rds, _: test_program.test_reader_that_leaves_early(rds, SAMPLE, "list")),
    ("silent", "no line of", lambda rds, _: test_program.test_progress_line(rds, SAMPLE, "list --workers 1")),
    ("silent", "", lambda rds, at: test_program.test_device(rds, at, [*test_program.REFUSED][1])),
    *(("last_number", r": (256|208)\n|^(256|208)\b", each_number(words)) for words in test_program.EACH),
    ("misprinting", "default of --reach", lambda rds, _: pages(rds)),
    ("silent", "", lambda rds, _: test_pages.Program(rds)),
    ("misprinting", "", lambda rds, _: test_header.test_usual_rules(rds)),
    (
        f"{DIFFERING} hanging".replace("without_gaps ", ""),
        "",
        lambda rds, _: test_listings.test_sum(rds, "slips list --burst 1"),
    ),
    ("crew_differs", "", lambda rds, _: test_listings.test_crew(rds, "station", (16, 4))),
    ("silent hanging content other_status no_progress noisy", "", refused),
    ("hanging", "", lambda rds, at: test_examples.Day(rds, at)),
    ("silent hanging", "", lambda rds, _: test_package.test_completion(rds, test_package.by_bash, "list")),
    ("one_byte_short", "", lambda rds, at: test_differential.test_places_of_each_length(rds, at, 2)),
    (
        "one_worker_more",
        "threads, where",
        lambda rds, at: work(rds, at, "station totals --pieces 16 --workers 4"),
    ),
    ("silent", "bytes written, where", lambda rds, at: work(rds, at, "empty list --workers 1")),
    ("hanging", "", lambda rds, at: work(rds, at, "sample scan --workers 4")),
    ("silent", "is not done", lambda rds, at: ways(rds, at, "lines.1", "encode", "encode --hex")),
    ("cubed slow_second slow_third", "CPU-milliseconds", lambda rds, at: growth(rds, at)),
    (f"{DIFFERING} {OF_LINES}", "seed", lambda rds, _: differ(rds)),
    ("noisy other_status hanging", "'17 of 17'", lambda rds, _: differ(rds)),
    (DIFFERING, "seed", lambda rds, _: stream(rds)),
    ("noisy other_status hanging", "seed 1:", lambda rds, _: stream(rds)),
    ("later beyond ahead progress_short no_progress silent hanging", "", lambda rds, _: progress(rds)),
    ("other_rules", "", lambda rds, _: recordings(rds)),
]


@pytest.mark.parametrize(
    "program, text, test",
    [(program, text, test) for programs, text, test in SEEN for program in programs.split()],
)
def test_wrong_program(
    wrong: Callable[[str], str], tmp_path: Path, monkeypatch: Any, program: str, text: str, test: Any
) -> None:
    # a wrong program is no more right at the fifteenth attempt
    monkeypatch.setattr(test_growth, "ATTEMPTS", 3)
    if program == "hanging":
        monkeypatch.setenv("LIMIT", "1")
        for module in (running, test_program, test_differential, test_growth, test_refusals, test_progress):
            monkeypatch.setattr(module, "LIMIT", 1)
    fails(text, test, wrong(program), tmp_path)


@pytest.mark.parametrize("kind", test_refusals.KINDS)
def test_answers_to_a_refused_call(kind: str) -> None:
    """The job's own output is two rows; a stream may leave whole rows, and a refused thread is no refusal."""
    whole, row, told = (
        b"row 1\nrow 2\n",
        b"row 1\n",
        f"refused {test_refusals.NAMES.get(kind, '14 NoWorker')}\n".encode(),
    )
    wrong = [(1, b"", b"refused 5 TooLong\n"), (1, b"", b""), (2, b"", told), (1, whole + b"row 3\n", told)]
    wrong += [(0, b"", b""), (1, whole, b""), (0, whole, b"a word\n")]
    wrong += [] if kind == "write" else [(1, b"" if kind == "thread" else row, told)]
    right = Ran(0, whole, b"") if kind == "thread" else Ran(1, b"", told)
    is_right = lambda ended, is_stream=False: test_refusals.is_right(kind, Ran(*ended), whole, is_stream)
    assert is_right(right) and [ended for ended in wrong if is_right(ended)] == []
    assert is_right((1, row, told), True) == (kind != "thread")
    assert is_right((1, row + b"ro", told), True) == (kind == "write")


# A bench of fixed answers, wrong in one form, or slow over larger inputs: the edit, the two forms, and what is told.
BENCHES = {
    "failing": ("[ $1 != guess ] || status=1", "items guess", "guess: no time and count"),
    "silent": ("[ $1 != items ] || exit 0", "items guess", "items: no time and count"),
    "other_words": ("[ $1 != scan ] || found=windows", "places scan", "scan: no time and count"),
    "miscounting": ("[ $1 != divided ] || found=8", "divided places", "divided finds 8, and places 7"),
    "fast": ("times[items]=1", "items guess", "1 ns, less than 150 % of the 1 ns of guess"),
    "cubed": (
        "n=$(($(stat -L -c %s /dev/stdin) / 30000)); [ $1 != windows ] || for ((k = 0; k < n ** 3; k++)); do :; done",
        "windows",
        "CPU-milliseconds",
    ),
    "reportless": ("[ $1 != report ] || exit 1", "report", "report: no time and count"),
}


@pytest.mark.parametrize("name", BENCHES)
def test_wrong_bench(tmp_path: Path, monkeypatch: Any, name: str) -> None:
    monkeypatch.setattr(test_growth, "ATTEMPTS", 3)
    edit, forms, text = BENCHES[name]
    inputs = test_growth.Inputs(tmp_path)
    times = "([scan]=1 [windows]=1 [places]=4 [divided]=16 [report]=1 [guess]=1 [items]=4)"
    answer = 'echo "${times[$1]} $found" && exit $status'
    text_of_bench = f"#!/bin/bash\ndeclare -A times={times}\nfound=7 status=0\n{edit}\n{answer}\n"
    bench = script(tmp_path / f"bench_{name}", text_of_bench)
    if " " in forms:
        fails(text, test_growth.test_forms, str(bench), inputs, "150", *forms.split(), "lines.1")
    else:
        fails(text, test_growth.test_growth_of_forms, str(bench), inputs, f"station {forms}")


def test_wrong_library(librds: str, tmp_path: Path) -> None:
    """One that does nothing, or refuses each call; and other answers of random calls."""
    earlier = test_library.make_earlier(tmp_path)
    programs = test_library.Programs(librds, None, earlier, tmp_path)
    for name in ("none", "refusing"):
        fails("", test_library.test_exported_names, str(earlier / name), note)
        fails("", test_library.test_texts, str(earlier / name))
        words = ["env", f"LD_LIBRARY_PATH={earlier / name}", *programs("0.2")]
        fails("", test_library.answer_as_plain, "0.2", words, range(1, 3))


BAD_BOUNDS: list[Callable[[str], str]] = [
    lambda text: "",
    lambda text: text[:-1],
    lambda text: text + text.splitlines()[-1] + "\n",
    lambda text: text + "1 1 1 nothing scan\n",
    lambda text: text + "no bounds\n",
]


@pytest.mark.parametrize("fault", BAD_BOUNDS)
def test_bounds_that_are_not_whole(tmp_path: Path, monkeypatch: pytest.MonkeyPatch, fault: Any) -> None:
    (tmp_path / "bounds").write_text(fault(test_work.TABLE.read_text()))
    monkeypatch.setattr(test_work, "TABLE", tmp_path / "bounds")
    fails("", test_work.lines)


# ---- pages and header


def outcome_of(*words: str, top: Path = TOP, **variables: str) -> Ran:
    """Runs tests of the tree at `top`."""
    asked = [sys.executable, "-B", "-m", "pytest", "-q", "-n", "0", *words]
    return run(*asked, cwd=top / "tests", timeout=600, env={**os.environ, **variables})


@pytest.fixture
def copy(tmp_path: Path) -> Path:
    """A copy of the tree, whose crates and bindings are those of the tree."""
    top = tmp_path / "copy"
    top.mkdir()
    for path in TOP.iterdir():
        if path.name in ("crates", "bindings"):
            (top / path.name).symlink_to(path)
        elif path.is_file():
            shutil.copy2(path, top)
        elif path.name not in ("build", ".git"):
            shutil.copytree(path, top / path.name, ignore=shutil.ignore_patterns("__pycache__"))
    return top


def plant(path: Path, old: str, new: str, *, times: int = 1) -> None:
    """Replaces a text of a file, which has to be there; without one the file is new."""
    text = path.read_text() if old else ""
    assert old in text and (old or not path.exists()), f"{path}: {old}"
    path.write_text(text.replace(old, new, times) if old else new)


def test_wrong_pages(rds: str, copy: Path, cases: Cases) -> None:
    """Each row of wrong_pages.tsv is planted in one copy, and has to be told; ^ is a line end, and * after a file means each place.

    Each number in a comment of lib/rds.h is another, too.
    """
    assert outcome_of("test_pages.py", f"--rds={rds}", top=copy).status == 0
    rows = [line.split("\t") for line in (TOP / "tests" / "wrong_pages.tsv").read_text().splitlines()[1:]]
    for path, old, new, _ in rows:
        texts = [text.replace("^", "\n") for text in (old, new)]
        plant(copy / path.rstrip("*"), *texts, times=-1 if path[-1] == "*" else 1)
    header = copy / "lib" / "rds.h"
    numbers = lambda text: re.sub(r"\b(\d+)\b", r"\g<1>1", text[0])
    header.write_text(re.sub(r"/\*.*?\*/", numbers, header.read_text(), flags=re.S))
    faults = [fault for *_, fault in rows]
    faults += [f"{page}, '{told}'" for page, told, *_ in test_pages.TOLD if page == "lib/rds.h"]
    text = outcome_of("test_pages.py", f"--rds={rds}", top=copy).out.decode()
    assert [fault for fault in faults if fault not in text] == []
    cases(2 + len(faults))


# A change of lib/rds.h, and the tests that see it; in each struct and function a compiler compares.
DECLARATIONS = "declarations.crates declarations.bindings/rust all_of_version_0_2_is_still_declared"
ALL = f"{DECLARATIONS} declarations.bindings/python"
WRONG_HEADER = [
    ("RDS_TOO_LONG = 5,", "RDS_TOO_LONG = 7,", "errors all_of_version_0_2_is_still_declared"),
    ("{2, 3, 10, 0, {0}}", "{2, 3, 11, 0, {0}}", "usual_rules all_of_version_0_2_is_still_declared"),
    ("RDS_VERSION 0x000200", "RDS_VERSION 0x000300", "versions"),
    ("uint64_t lost; ", "uint64_t lots; ", ALL),
    ("uint64_t bits;      /*", "uint32_t bits, more; /*", ALL),
    ("uint8_t kind;   /*", "uint8_t kind; int last; /*", f"{ALL} header_in_cpp sizes_in_comments"),
    ("const rds_state_t *state", "rds_state_t *state", DECLARATIONS),
    ("rds_remainder(uint32_t word", "rds_remainder(uint64_t word", ALL),
    ("rds_version_text(void)", "rds_text_of_version(void)", "symbol_versions"),
    ("state             the state at", "stage             the state at", "names_in_comments"),
    ("rds_correct(uint32_t word", "rds_correct(uint32_t block", "names_of_parameters names_in_comments"),
    ("An item of a report: 48 bytes", "An item of a report: 47 bytes", "sizes_in_comments"),
]


@pytest.mark.parametrize("old, new, names", WRONG_HEADER)
def test_wrong_header(
    rds: str, librds: str, tmp_path: Path, cases: Cases, old: str, new: str, names: str
) -> None:
    cases(len(names.split()))
    for path in TOP.iterdir():
        (tmp_path / path.name).symlink_to(path) if path.name != "lib" else shutil.copytree(
            path, tmp_path / "lib"
        )
    plant(tmp_path / "lib/rds.h", old, new)
    with pytest.MonkeyPatch.context() as patch:
        patch.setattr(running, "TOP", tmp_path)
        module = importlib.reload(test_header)
        for name, _, source in (name.partition(".") for name in names.split()):
            test, given = getattr(module, f"test_{name}"), {"rds": rds, "librds": librds, "source": source}
            fails("", test, **{key: given[key] for key in inspect.signature(test).parameters})
    importlib.reload(test_header)


# ---- the run


def test_program_that_is_not_there() -> None:
    ended = outcome_of("test_header.py", "-k", "usual_rules", "--rds=/none")
    assert "/none is not there" in ended.out.decode()
    assert outcome_of("test_accuracy.py", "-k", "a_test_that_is_not_there").status == 5


SKIPPING = """
from running import needs
def test_with(): pass
def test_without(): needs("a-tool-that-is-not-there")
"""


# A row of the table, of which 1 passed and 1 was skipped; what the gate says of tools, and whether the run passes.
ALL_TOOLS = {"RDS_ALL_TOOLS": "1"}
ROWS_OF_COUNTS: list[tuple[list[int], dict[str, str], bool]] = [
    ([2, 0], {}, True),
    ([3, 0], {}, False),
    ([2, 0], ALL_TOOLS, False),
    ([1, 1], ALL_TOOLS, True),
    # one of those that passed is gone
    ([2, 1], ALL_TOOLS, False),
    # one is skipped that was not there
    ([1, 0], ALL_TOOLS, False),
    ([2, 0], {**ALL_TOOLS, "RDS_LACKING": "a-tool its-package"}, False),
    ([2, 0], {**ALL_TOOLS, "RDS_LACKING": "a-tool-that-is-not-there its-package"}, True),
    ([2, 1], {**ALL_TOOLS, "RDS_LACKING": "a-tool-that-is-not-there its-package"}, True),
]


def test_fewer_tests_than_the_table_has(copy: Path, request: Any, monkeypatch: Any, cases: Cases) -> None:
    """A test that is gone fails the run, and if all tools have to be there one that is skipped too, unless its tool cannot be had."""
    (copy / "tests" / "test_some.py").write_text(SKIPPING)
    reason, fault = (
        "there is no a-tool-that-is-not-there on the PATH",
        "tests/test_some.py: 1 passed and 1 skipped",
    )
    runner = request.config.pluginmanager.get_plugin(f"{TOP}/tests/conftest.py")
    for number, (wanted, variables, is_enough) in enumerate(ROWS_OF_COUNTS):
        for name in ("RDS_ALL_TOOLS", "RDS_LACKING"):
            monkeypatch.setenv(name, variables.get(name, ""))
        assert runner.is_short([1, 1, int(runner.is_excused(reason))], wanted) != is_enough, variables
        if number < 2:
            row = f"tests/test_some.py\t{wanted[0]}\t{wanted[1]}"
            (copy / "tests" / "counts.tsv").write_text(f"file\tpassed\tskipped\n{row}\n")
            ended = outcome_of("test_some.py", top=copy)
            text = ended.out.decode()
            assert (ended.status == 0) == is_enough == (fault not in text) and reason in text, text
    cases(len(ROWS_OF_COUNTS))


def test_file_that_is_gone(copy: Path) -> None:
    """Of a whole run each row has to have its file, and each file its row. None of the table's goes with its file."""
    rows = [line.split("\t") for line in (TOP / "tests/counts.tsv").read_text().splitlines()[1:]]
    assert len(rows) >= 72 and sum(int(passed) for _, passed, _ in rows) >= 77000
    assert {row[0] for row in rows if int(row[2])} <= {"monitor/tests/test_recipes.py"}
    for folder in ("tests", "monitor/tests"):
        for path in (copy / folder).glob("test_*.py"):
            path.unlink()
    (copy / "tests/test_some.py").write_text("def test_one(): pass\n")
    (copy / "tests/counts.tsv").write_text("file\tpassed\tskipped\ntests/test_gone.py\t1\t0\n")
    words = [sys.executable, *"-B -m pytest -q -n 0 tests monitor/tests".split()]
    ended = run(*words, cwd=copy, env={**os.environ, "PYTEST_ADDOPTS": ""})
    text = ended.out.decode()
    assert (
        ended.status == 1
        and "tests/test_gone.py: 0 passed" in text
        and "tests/test_some.py has no row" in text
    )


BY_WORKERS = """
import pytest
@pytest.mark.alone
def test_of_time(): assert False
@pytest.mark.xdist_group("one")
@pytest.mark.parametrize("number", range(8))
def test_of_a_group(number, worker_id): open("workers", "a").write(worker_id + " ")
"""


def test_run_by_workers(copy: Path, cases: Cases) -> None:
    """A group runs by one of them, and tests that run alone count."""
    (copy / "tests" / "test_some.py").write_text(BY_WORKERS)
    ended = run(sys.executable, *"-B -m pytest -n 2 test_some.py".split(), cwd=copy / "tests")
    workers = (copy / "tests" / "workers").read_text().split()
    assert len(workers) == 8 and len({*workers}) == 1, ended.out
    text = ended.out.decode()
    assert ended.status == 1 and "1 failed" in text and "8 passed" in text, text
    cases(2)


@pytest.mark.parametrize(
    "tests, status",
    [("monitor/tests/test_fields.py", 0), ("monitor/tests/test_rooms.py tests/test_accuracy.py", 1)],
)
def test_random_edit(tests: str, status: int) -> None:
    """An edit of the tables of names is seen by the test that compares them, and by no other of either folder."""
    words = f"--count 1 --files monitor/rds_monitor/content/names.py --tests {tests}".split()
    ended = run(sys.executable, TOP / "tests" / "mutants.py", *words)
    assert ended.status == status and (b"NOT SEEN" in ended.out) == (status == 1), ended


# Seeds whose edits were all tried: no day alone turns the gate red. Others are for `tests/mutants.py` by hand.
SEEDS = (6, 7, 8)


def test_random_edits_of_the_day(rds: str, librds: str, cases: Cases) -> None:
    """Each of 12 edits, by another seed each day, is seen by a near test, or mutants.tsv says why not. A change of the tree changes few of
    them. build/mutants has them."""
    variables = {**os.environ, "RDS": rds, "RDS_LIBRARY": f"{librds}/librds.so.0", "PYTEST_ADDOPTS": ""}
    seed = SEEDS[int(time.time() // 86400) % len(SEEDS)]
    words = f"--seed {seed} --count 12 --near 3 --seconds 120".split()
    ended = run(sys.executable, TOP / "tests" / "mutants.py", *words, env=variables, timeout=1800)
    (TOP / "build").mkdir(exist_ok=True)
    (TOP / "build" / "mutants").write_bytes(ended.out)
    unseen = [line for line in ended.out.decode().splitlines() if line.endswith("NOT SEEN")]
    assert not unseen and ended.status == 0 and b"12 of 12 edits are seen" in ended.out, (unseen, ended)
    cases(12)


# ---- the tools


# Tools that come with others, or with Debian itself.
OTHER_TOOLS = "RT date librds podman sh dpkg dpkg-architecture dpkg-deb readelf strip objdump qemu-x86_64 make python3 rt a-tool-that-is-not-there"


def test_tools_that_the_gate_installs() -> None:
    """A test whose tool is missing is skipped: .ci/run names each tool but some that come with others."""
    paths = [*(TOP / "tests").glob("*.py"), *(TOP / "monitor/tests").glob("*.py")]
    texts = "".join(path.read_text() for path in paths)
    rows = re.findall(r"\b(?:needs|which|importorskip)\(([^*)]*)\)", texts)
    tools = {tool for row in rows for tool in re.findall(r'"([\w-]+)"', row)}
    tools |= {*re.findall(r'reason="([\w-]+) is not installed"', texts)}
    gate = (TOP / ".ci/run").read_text()
    missing = {tool for tool in tools if not re.search(rf"\b{re.escape(tool)}(?![\w-])", gate)}
    assert len(tools) > 30 and missing <= {*OTHER_TOOLS.split()}


# ---- wrong bodies, front pages and proofs

ANSWERS = {
    "wrong bodies of none": lambda text: text,
    "there is no line": lambda text: "".join(line for line in text.splitlines(True) if line.startswith("#")),
    "the last line is cut off": lambda text: text[:-1],
    "two lines of": lambda text: text + text.splitlines()[-1] + "\n",
    "says nothing of an edit": lambda text: text[: text.rindex(":")] + "\n",
    "edits that are not there": lambda text: text + "rds_code/no_such_edit: nothing\n",
}


@pytest.fixture
def crates(copy: Path) -> Path:
    """A copy of the tree with one crate that has two edits, and the wrong bodies of the others."""
    (copy / "crates").unlink()
    for folder in (TOP / "crates").iterdir():
        for name in ("wrong", *(("src", "specs", "proofs") if folder.name == "rds_code" else ())):
            if (folder / name).is_dir():
                shutil.copytree(folder / name, copy / "crates" / folder.name / name)
        (copy / "crates" / folder.name / "src").mkdir(parents=True, exist_ok=True)
        for root in folder.glob("src/lib.rt"):
            shutil.copy2(root, copy / "crates" / folder.name / "src")
    table = copy / "tests" / "must_fail.edits"
    table.write_text(table.read_text().split("\n\n")[1] + "\n")
    return copy


def wrong_bodies(top: Path, *words: object, rt: str = "true") -> tuple[int | None, str]:
    """The status of the script, and what it tells."""
    ended = run(sys.executable, top / "tests" / "wrong_bodies.py", *words, env={**os.environ, "RT": rt})
    return ended.status, (ended.out + ended.err).decode()


@pytest.mark.parametrize("fault", ANSWERS)
def test_answers_that_are_not_whole(crates: Path, fault: str) -> None:
    # nothing is proved, as no crate has the name 'none'
    answers = crates / "tests" / "wrong_bodies.answers"
    answers.write_text(ANSWERS[fault](answers.read_text()))
    status, text = wrong_bodies(crates, "none")
    assert status not in (0, None) and fault in text


def test_wrong_bodies_without_a_toolchain(tmp_path: Path) -> None:
    log = tmp_path / "proofs.log"
    log.write_text("rt: rds_code NOT PROVED\nproofs: ended\n")
    status, text = wrong_bodies(TOP, rt="none")
    assert status == 1 and "no Rattle toolchain" in text
    status, text = wrong_bodies(TOP, "--beside", log, "rds_stream")
    assert status == 1 and "rds_code is not proved" in text


# A prover that refuses an edit by the goal that it names, and by a goal at its line.
PROVER = r"""#!/bin/sh
at=$(grep -n '(self.number + 1).min(4)' src/block_number.rt)
echo only=2 checked
echo "./proofs/block_number/BlockNumber/next/Answers.antt:9:1: error: \`returns\`: no proof was found"
echo "note: src/block_number.rt:${at%%:*}:1: a goal is left (\`value\`)" """
REFUSED_RIGHT = r"""
echo "./proofs/block_number/BlockNumber/next_2/Answers.antt:9:1: error: \`returns\`: no proof was found" """


def tried_edits(crates: Path, prover: str) -> tuple[int | None, str]:
    """The answer for two edits of a crate, of which the second changes nothing."""
    folder, same = crates / "crates" / "rds_code", "1..=4 => Some(BlockNumber { number }),"
    for edit in (folder / "wrong").iterdir():
        edit.unlink() if edit.name != "no_block_after_the_fourth.edit" else None
    unchanged = f"file: src/block_number.rt\nold: {same}\nnew: {same} // the same\n"
    (folder / "wrong" / "nothing_is_changed.edit").write_text(unchanged)
    answers = crates / "tests" / "wrong_bodies.answers"
    answers.write_text(re.sub("^rds_code.*\n", "", answers.read_text(), flags=re.M))
    script(crates / "kit/bin/rattle", prover)
    return wrong_bodies(crates, "rds_code", rt=str(script(crates / "kit/bin/rt", "#!/bin/sh\n")))


def test_edit_that_changes_nothing(crates: Path) -> None:
    """It is not refused by the goals of another edit of the same file. The gate tries an edit with `equal:` of that crate by the prover."""
    status, text = tried_edits(crates, PROVER)
    assert status == 1 and "2 as they must be, 1 not: rds_code/nothing_is_changed" in text, text


def test_right_body_that_is_refused(crates: Path) -> None:
    status, text = tried_edits(crates, PROVER + REFUSED_RIGHT)
    assert status == 1 and "no_block_after_the_fourth.edit, the right body: refused: returns - WRONG" in text


def must_fail(top: Path, *words: object) -> Ran:
    """The run of the script that makes the edits of must-fail/."""
    return run(sys.executable, top / "tests" / "must_fail.py", *words)


def test_edits_of_must_fail(crates: Path) -> None:
    folder = crates / "crates" / "rds_code"
    script(folder / "must-fail" / "of_another_table.edit", "")
    assert must_fail(crates).status == 0
    assert [path.name for path in (folder / "must-fail").iterdir()] == ["limit_of_six_bits.edit"]
    edit = (folder / "must-fail" / "limit_of_six_bits.edit").read_text()
    pairs = re.findall(r"^file: (.*)\nold: (.*)\nnew: (.*)$", edit, re.M)
    assert edit.startswith("file: src/burst_limit.rt\nold: if bits <=") and edit.count("\n") == 3 * len(pairs)
    texts = {file: (folder / file).read_text() for file, _, _ in pairs}
    for file, old, new in pairs:
        assert texts[file].count(old) == 1, (file, old)
        texts[file] = texts[file].replace(old, new)
    left = re.findall(r"^(?:pub )?(?:mod|use) .*;", texts["src/lib.rt"], re.M)
    assert left == ["mod burst_limit;"] and "proofs/ThirdLemmas.antt" in texts


def test_edit_that_cannot_be_made(crates: Path) -> None:
    table = crates / "tests" / "must_fail.edits"
    table.write_text(table.read_text().replace("old: if bits", "old: a text that is nowhere"))
    ended = must_fail(crates)
    assert ended.status == 1 and b"the text occurs 0 times" in ended.err
    table.write_text(table.read_text().replace("stay: ", "stays: "))
    ended = must_fail(crates)
    assert ended.status == 1 and b"an edit has the five lines" in ended.err


def test_edit_that_was_not_tried(crates: Path, tmp_path: Path) -> None:
    log = tmp_path / "proofs.log"
    log.write_text("rt: must-fail rds_code/limit_of_six_bits.edit: BAD EDIT: it changes nothing\n")
    ended = must_fail(crates, "--tried", log)
    assert ended.status == 1 and b"rds_code/limit_of_six_bits" in ended.err
    log.write_text(
        "rt: must-fail rds_code/limit_of_six_bits.edit: refused, as it must be: note: src/burst_limit.rt:36:13: a goal\n"
    )
    assert must_fail(crates, "--tried", log).status == 0


def test_proofs_that_fail(crates: Path, tmp_path: Path) -> None:
    failing = script(tmp_path / "rt", '#!/bin/sh\necho "rt: rds_code NOT PROVED"; exit 1\n')
    ended = run("make", "-C", crates, f"RT={failing}", "proofs", env={**os.environ, "MAKEFLAGS": ""})
    assert ended.status != 0 and "rt: rds_code NOT PROVED" in ended.out.decode()
    assert "proofs: ended" in (crates / "build/proofs.log").read_text().splitlines()


# ---- the gate, of programs that do nothing, one of which fails

CALLED = {
    "python3 -m pytest -n auto tests monitor/tests": "python3",
    "wrong_bodies.py --beside build/proofs.log": "wrong_bodies.py",
    "archive.py amd64 build/librds-amd64.a": "archive.py amd64",
    "archive.py arm64 build/librds-arm64.a": "archive.py arm64",
    "make_library.sh build/librds-amd64.a build/lib": "make_library.sh",
    "rt ci": "rt",
    "must_fail.py": "must_fail.py",
    "must_fail.py --tried build/proofs.log": "must_fail.py --tried",
}
STUBS = "tests/must_fail.py tests/wrong_bodies.py lib/archive.py lib/make_library.sh few/make few/apt-get"
TOOLS = "tools/rt tools/git tools/python3 tools/aarch64-linux-gnu-gcc"


class Gate:
    """The Makefile and .ci/run among programs that note their words; one fails."""

    def __init__(self, top: Path) -> None:
        self.top = top
        failing = '[ "${0##*/}" != "$FAILING" ] && [ "${0##*/} $1" != "$FAILING" ]'
        for name in f"{STUBS} {TOOLS}".split():
            script(top / name, f'#!/bin/sh\necho "${{0##*/}} $*" >>{top}/called\n{failing}\n')
        (top / "few/dirname").symlink_to(str(shutil.which("dirname")))
        (top / ".ci").mkdir()
        (top / "crates").mkdir()
        (top / "crates.txt").touch()
        for path in ("Makefile", ".ci/run"):
            shutil.copy2(TOP / path, top / path)
        noting = f"\necho $RDS_ALL_TOOLS $RDS_LACKING >{top}/lacking\n"
        (top / "few/make").write_text((top / "few/make").read_text().replace("\n", noting, 1))
        # the options that a caller gives pytest leave out no test
        tests = top / "tools/python3"
        tests.write_text(tests.read_text().replace("$*", "$*$PYTEST_ADDOPTS", 1))

    def run(self, *words: str, path: str, failing: str = "") -> Ran:
        (self.top / "called").write_text("")
        variables = {**os.environ, "PATH": path, "FAILING": failing, "MAKEFLAGS": ""}
        variables["PYTEST_ADDOPTS"] = " -k none"
        return run(*words, cwd=self.top, env=variables)

    def make_test(self, failing: str = "") -> Ran:
        path = f"{self.top}/tools:{os.environ['PATH']}"
        return self.run("make", "test", "RT=rt", "PYTHON=python3", path=path, failing=failing)

    def ci(self, failing: str = "") -> Ran:
        return self.run(str(shutil.which("bash")), ".ci/run", path=f"{self.top}/few", failing=failing)

    def called(self) -> list[str]:
        return [line.rstrip() for line in (self.top / "called").read_text().splitlines()]


@pytest.fixture
def gate(tmp_path: Path) -> Gate:
    return Gate(tmp_path / "gate")


def test_gate(gate: Gate, cases: Cases) -> None:
    ended = gate.make_test()
    assert ended.status == 0 and {*CALLED} <= {*gate.called()}, ended
    assert gate.called()[-3] == "python3 -m pytest -n auto tests monitor/tests"
    for name in CALLED.values():
        assert gate.make_test(failing=name).status not in (0, None), name
    cases(2 * len(CALLED) + 1)


def test_ci(gate: Gate, cases: Cases) -> None:
    """It installs each package if all tools are missing, one by one if that fails, and ends as `make test` does. Then each tool that is
    not there is named to the tests."""
    assert gate.ci(failing="make").status not in (0, None)
    tools = re.findall(r"(\S+):(\S+)", (TOP / ".ci/run").read_text().split("tools=(")[1].split(")\n")[0])
    packages = {package for _, package in tools}
    assert len(tools) > 30 and packages <= {*installs(gate)[0]}
    ended = gate.ci(failing="apt-get")
    assert ended.status == 0 and gate.called()[-1] == "make test"
    one_by_one = installs(gate)[1:]
    assert packages <= {call[-1] for call in one_by_one} and {len(call) for call in one_by_one} == {5}
    all_tools, *lacking = (gate.top / "lacking").read_text().split()
    assert all_tools == "1" and {name for pair in tools for name in pair} <= {*lacking}
    cases(len(tools) + 4)


def installs(gate: Gate) -> list[list[str]]:
    """The words of each call that installs packages."""
    return [line.split() for line in gate.called() if line.startswith("apt-get install ")]


def test_commit_that_passed(gate: Gate, cases: Cases) -> None:
    """build/passed names a commit only if the tree was that commit from the begin of the tests to their end."""
    (gate.top / "tools/git").unlink()
    (gate.top / ".gitignore").write_text("called\nlacking\nbuild\n")

    def commit(text: str) -> str:
        (gate.top / "file").write_text(text)
        wrote("git", "init", "-q", cwd=gate.top)
        wrote("git", "add", "-A", cwd=gate.top)
        wrote(*"git -c user.name=a -c user.email=a commit -qm".split(), text, cwd=gate.top)
        return said("git", "rev-parse", "HEAD", cwd=gate.top)

    passed = gate.top / "build/passed"
    first = commit("one")
    assert gate.make_test().status == 0 and passed.read_text().split() == [first]
    second = commit("two")
    assert gate.make_test(failing="python3").status != 0 and passed.read_text().split() == [first]
    (gate.top / "file").write_text("changed")
    assert gate.make_test().status == 0 and passed.read_text().split() == [first]
    wrote("git", "checkout", "-q", "file", cwd=gate.top)
    tests = gate.top / "tools/python3"
    tests.write_text(
        f"{tests.read_text()}\necho three >{gate.top}/file; git -C {gate.top} -c user.name=a -c user.email=a commit -qam three\n"
    )
    # the tree is clean at the begin
    third = commit("tests that commit")
    assert gate.make_test().status == 0 and passed.read_text().split() == [first]
    assert said("git", "rev-parse", "HEAD", cwd=gate.top) not in (first, second, third)
    cases(4)
