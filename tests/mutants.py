#!/usr/bin/env python3
"""Random edits of rds-monitor, packaging and completions, one at a time in a copy of the tree: which ones no test sees.

    RDS=build/rds tests/mutants.py [--seed N..] [--count N] [--jobs N] [--files PATTERN..] [--tests FILE..] [--near N] [--seconds N]
        [--comparators]

A seed draws by the texts of files, lines and edits, so that a change of the tree changes few draws. The tests that import the edited file,
or name it, run first, then all others of monitor/tests; with --near only the N nearest that are quick. With --comparators each edit is <
for <=, > for >=, or back. A test that fails counts if it passes without the edit. mutants.tsv has the edits that change nothing, with a reason each, and edits that only a far test sees, with that
test, which then runs first. Status 1: others survived.
"""

from __future__ import annotations

import argparse
import ast
import contextlib
import functools
import hashlib
import itertools
import os
import queue
import re
import resource
import shutil
import signal
import subprocess
import sys
import tempfile
from concurrent.futures import ThreadPoolExecutor
from pathlib import Path
from typing import Any, Iterator, NamedTuple

TOP = Path(__file__).resolve().parents[1]
# What a copy has for itself; all else is linked. The roots below which a test finds what it imports.
COPIED, ROOTS = "monitor packaging completions tests pyproject.toml", "monitor monitor/tests tests packaging"
# The seconds by the clock and the bytes of memory that the tests of one edit may take: it may loop.
SECONDS, MEMORY = 1800, 4 << 30
PAIRS = "Lt LtE, Gt GtE, Eq NotEq, Is IsNot, In NotIn, And Or, Add Sub, Mult FloorDiv, BitAnd BitOr, RShift LShift, USub UAdd"
OTHER = dict(pair for one, two in map(str.split, PAIRS.split(", ")) for pair in ((one, two), (two, one)))
OTHER |= {"Div": "Mult", "Mod": "FloorDiv"}
# In a text of several lines: its numbers, operators and functions, and two entries between semicolons.
IN_TEXT = {r"\b\d+\b": "", " < ": " <= ", " > ": " >= ", " - ": " + ", " AND ": " OR ", "MAX": "MIN"}
# Tests of eight CPU-seconds and more; with --near they come last.
SLOW = "demod watch_network watch_sent cli watch_process gnuradio readme capture speed why batch browser demo contents_random".split()
# In a file that is not Python, beside its numbers; and whole lines are left out.
IN_FILE = {
    "yes": "no",
    "no": "yes",
    "&&": "||",
    " > ": " < ",
    " == ": " != ",
    "=~": "!~",
    "-d": "-f",
    "always": "no",
}
ENTRIES = re.compile(r"(?<=; )([^;]+); ([^;]+)(?=; )")


class Edit(NamedTuple):
    """A field of a node in a statement of a file, and its other value."""

    path: str
    tree: ast.AST
    statement: ast.stmt
    node: Any
    field: str
    value: Any

    @property
    def line(self) -> int:
        return int(self.node.lineno)

    def texts(self) -> tuple[str, str]:
        """The file with the edit, and without it, both with the line by which a script is run."""
        first = (TOP / self.path).read_text().partition("\n")[0]
        head = f"{first}\n" if first.startswith("#!") else ""
        return head + self.source(self.tree), head + ast.unparse(self.tree)

    def source(self, node: ast.AST) -> str:
        """The source of the tree, or of a statement, that holds the edited node."""
        before = getattr(self.node, self.field)
        setattr(self.node, self.field, self.value)
        try:
            return ast.unparse(node)
        finally:
            setattr(self.node, self.field, before)

    def name(self) -> str:
        """The words that differ, with some before and after them."""
        both = ast.unparse(self.statement), self.source(self.statement)
        begin, end = (len(os.path.commonprefix(texts)) for texts in (both, [text[::-1] for text in both]))
        begin, end = max(0, begin - 30), max(0, min(end, *(len(text) - begin for text in both)) - 30)
        old, new = (" ".join(text[begin : len(text) - end].split()) for text in both)
        return f"{self.path}: {old} -> {new}"


class LineEdit(NamedTuple):
    """A line of a file that is not Python, and its other text; or none, if it is left out."""

    path: str
    line: int
    before: str
    after: str

    def texts(self) -> tuple[str, str]:
        lines = (TOP / self.path).read_text().splitlines(keepends=True)
        return "".join([*lines[: self.line - 1], self.after, *lines[self.line :]]), "".join(lines)

    def name(self) -> str:
        return f"{self.path}: {self.before.strip()} -> {self.after.strip()}"


def negated(node: Any) -> ast.expr:
    return ast.UnaryOp(ast.Not(), node)


def swapped(values: list[Any]) -> Iterator[list[Any]]:
    """The values, of which two neighbours have changed places."""
    for k in range(len(values) - 1):
        if ast.dump(values[k]) != ast.dump(values[k + 1]):
            yield [*values[:k], values[k + 1], values[k], *values[k + 2 :]]


def texts_of(text: str) -> Iterator[str]:
    """A table in a text, edited. Entries that begin with their keys keep these."""
    comments = {place for found in re.finditer("-- .*", text) for place in range(*found.span())}
    for pattern, new in IN_TEXT.items():
        for found in re.finditer(pattern, text):
            if found.start() not in comments:
                yield text[: found.start()] + (new or str(int(found[0]) + 1)) + text[found.end() :]
    for found in (found for found in ENTRIES.finditer(text) if found.start() not in comments):
        (key, _, one), (other_key, _, other) = (entry.partition(" ") for entry in found.groups())
        new = f"{key} {other}; {other_key} {one}" if one and other else f"{found[2]}; {found[1]}"
        yield text[: found.start()] + new + text[found.end() :]


def fields_of(node: Any) -> Iterator[tuple[str, Any]]:
    """The fields of a node that may have another value, and these."""
    if isinstance(node, ast.Constant) and type(node.value) in (bool, int, float):
        small = [node.value + 1, node.value - 1] if node.value < 10 or isinstance(node.value, int) else []
        others = [not node.value] if isinstance(node.value, bool) else small or [node.value * 10]
        yield from (("value", other) for other in others)
    elif isinstance(node, ast.Compare):
        for k, op in enumerate(node.ops):
            if type(op).__name__ in OTHER:
                yield "ops", [*node.ops[:k], getattr(ast, OTHER[type(op).__name__])(), *node.ops[k + 1 :]]
    elif isinstance(node, (ast.BinOp, ast.BoolOp, ast.UnaryOp, ast.AugAssign)):
        if type(node.op).__name__ in OTHER:
            yield "op", getattr(ast, OTHER[type(node.op).__name__])()
        elif isinstance(node.op, ast.Not):
            yield "operand", negated(node.operand)
    elif isinstance(node, (ast.Tuple, ast.List, ast.Call, ast.Dict)):
        field = {ast.Call: "args", ast.Dict: "values"}.get(type(node), "elts")
        if not re.fullmatch(r"(numpy\.)?(max|min)(imum)?", ast.unparse(getattr(node, "func", node))):
            yield from ((field, values) for values in swapped(getattr(node, field)))
    elif isinstance(node, (ast.IfExp, ast.If, ast.While)):
        yield "test", negated(node.test)
    elif isinstance(node, ast.Return) and isinstance(node.value, (ast.Compare, ast.BoolOp)):
        yield "value", negated(node.value)


def line_edits_of(path: Path) -> Iterator[LineEdit]:
    """All edits of a file but those of its comments."""
    for number, line in enumerate(path.read_text().splitlines(keepends=True), 1):
        edit = functools.partial(LineEdit, str(path.relative_to(TOP)), number, line)
        if line.strip() and not line.lstrip().startswith("#"):
            yield edit("")
            for found in re.finditer(r"\d+", line):
                yield edit(
                    f"{line[: found.start()]}{int(found[0]) + 1:0{len(found[0])}}{line[found.end() :]}"
                )
            yield from (edit(line.replace(old, new, 1)) for old, new in IN_FILE.items() if old in line)


def edits_of(path: Path) -> Iterator[Edit | LineEdit]:
    """All edits of a file but those of its types and of the texts that it prints."""
    if path.suffix != ".py":
        yield from line_edits_of(path)
        return
    name, tree = str(path.relative_to(TOP)), ast.parse(path.read_bytes())
    nodes = [*ast.walk(tree)]
    types = [getattr(node, of, None) for node in nodes for of in ("annotation", "returns")]
    types += [node for node in nodes if isinstance(node, ast.Subscript) and ast.unparse(node.value).istitle()]
    left_out = {inner for node in types if node for inner in ast.walk(node)}
    # the innermost statement of each, since outer ones come first
    owners = {inner: node for node in nodes if isinstance(node, ast.stmt) for inner in ast.walk(node)}
    of = lambda node, found: (Edit(name, tree, owners[node], node, field, value) for field, value in found)
    for node in nodes:
        if node in owners and node not in left_out:
            yield from of(node, fields_of(node))
        if isinstance(node, ast.Assign) and isinstance(node.targets[0], ast.Name):
            for part in ast.walk(node.value):
                if isinstance(part, ast.Constant) and isinstance(part.value, str) and "\n" in part.value:
                    texts = {*texts_of(part.value)} - {part.value}
                    yield from of(part, (("value", text) for text in sorted(texts)))


@functools.cache
def commands() -> dict[str, Path]:
    """The module of each command, which is imported by name."""
    package = TOP / "monitor/rds_monitor"
    calls = [
        node for node in ast.walk(ast.parse((package / "cli.py").read_bytes())) if isinstance(node, ast.Call)
    ]
    told = [
        [ast.literal_eval(word) for word in node.args]
        for node in calls
        if ast.unparse(node.func) == "Command"
    ]
    return {name: package / f"{module.replace('.', '/')}.py" for name, module, _ in told}


@functools.cache
def imports(path: Path) -> set[Path]:
    """The files of the tree that a file imports, and if it is a test those of the commands that it names."""
    found: set[Path] = set()
    for node in ast.walk(ast.parse(path.read_bytes())):
        if isinstance(node, ast.Constant) and path.name.startswith("test_") and isinstance(node.value, str):
            found |= {commands()[word] for word in node.value.split(" ")[:1] if word in commands()}
        if isinstance(node, (ast.Import, ast.ImportFrom)):
            level, module = getattr(node, "level", 0), getattr(node, "module", None) or ""
            bases = [path.parents[level - 1]] if level else [TOP / root for root in ROOTS.split()]
            names = [module, *(f"{module}.{one.name}".strip(".") for one in node.names)]
            found |= {base / f"{name.replace('.', '/')}.py" for base in bases for name in names}
    return {path for path in found if path.is_file()}


@functools.cache
def reached(path: Path) -> dict[Path, int]:
    """The files that one imports by itself or by others, and in how many steps."""
    found, left, steps = {path: 0}, {path}, 0
    while left:
        steps += 1
        left = {one for above in left for one in imports(above)} - {*found}
        found.update(dict.fromkeys(left, steps))
    return found


def tests_of(edited: Path, near: int | None) -> list[str]:
    """The tests for an edit of a file, the nearest first; of packaging and completions those that name it. Or only some of the nearest."""
    of_monitor = sorted((TOP / "monitor/tests").glob("test_*.py"))
    if edited.is_relative_to(TOP / "monitor"):
        steps = {path: reached(path).get(edited, 99) for path in of_monitor}
    else:
        every = [*of_monitor, *sorted((TOP / "tests").glob("test_*.py"))]
        steps = {path: 1 for path in every if names(path, edited)}
    named = lambda path, name: re.search(f"_{name}(_|$)", path.stem) is not None
    is_other = lambda path: not named(path, edited.stem) and not named(path, edited.parent.name)
    # or of a file beside it
    beside = {f"test_{path.stem}" for path in edited.parent.glob("*.py")}
    is_slow = lambda path: near is not None and path.stem.removeprefix("test_") in SLOW and is_other(path)
    ranks = lambda path: (not named(path, edited.stem), is_other(path), path.stem not in beside)
    far = lambda path: (is_slow(path), steps[path], *ranks(path))
    tests = sorted(steps, key=far)
    # the widest test: whole texts of each command
    rich = [path for path in tests if path.stem == "test_rich"][: near is not None]
    return [str(path.relative_to(TOP)) for path in dict.fromkeys([*tests[:near], *rich])]


def names(test: Path, edited: Path) -> bool:
    """Whether a test names a file and its folder. All of rds-monitor's packaging is tried on a machine, too."""
    text, folder = test.read_text(), edited.parent.name
    is_installed = edited.name.startswith("rds-monitor") and test.name == "test_system.py"
    is_named = f'"{edited.name}"' in text and f'"{folder}"' in text
    return is_installed or is_named or f"{folder}/{edited.name}" in text


def copy_to(top: Path) -> None:
    """Copies the tree; what no edit changes is linked."""
    for path in TOP.iterdir():
        if path.name not in COPIED.split():
            (top / path.name).symlink_to(path)
        elif path.is_dir():
            shutil.copytree(path, top / path.name, ignore=shutil.ignore_patterns("__pycache__"))
        else:
            shutil.copy2(path, top)


def compiled(top: Path) -> None:
    """Two versions of a file may have one size and one time: bytecode is that of a text by its hash."""
    words = "-m compileall -q --invalidation-mode checked-hash monitor tests packaging".split()
    subprocess.run([sys.executable, *words], cwd=top, stdout=subprocess.DEVNULL)


def failing(top: Path, tests: list[str], passed_over: list[str], most: str = "1") -> list[str]:
    """The first tests of a tree that fail, or "no end"."""
    # both folders have a conftest, of which pytest imports the last one for good: that of the tests that import from it
    tests = sorted(tests, key=lambda name: name.startswith("monitor/"))
    words = [sys.executable, *f"-m pytest --maxfail={most} -q -rfE -n 0 --rootdir=.".split(), *tests]
    words += [f"--deselect={name}" for name in passed_over]
    variables = {**os.environ, "RDS_COUNTS_OF_ALONE": "/dev/null"}
    options: dict[str, Any] = {"stdout": subprocess.PIPE, "stderr": subprocess.STDOUT, "text": True}
    options["preexec_fn"] = lambda: resource.setrlimit(resource.RLIMIT_DATA, (MEMORY, MEMORY))
    with subprocess.Popen(words, cwd=top, env=variables, start_new_session=True, **options) as ran:
        try:
            text = ran.communicate(timeout=SECONDS)[0]
        except subprocess.TimeoutExpired:
            return ["no end"]
        finally:
            # An edited program may go on after its test.
            with contextlib.suppress(ProcessLookupError):
                os.killpg(ran.pid, signal.SIGKILL)
    found = [
        # a parameter with a blank is left out
        name if " " not in name else name.partition("[")[0]
        for name in re.findall(r"^(?:FAILED|ERROR) (\S+\.py.*?)(?: - .*)?$", text, re.M)
    ]
    if not found and ("MemoryError" in text or ran.returncode < 0):
        return ["no end"]
    # with 4 a test was not found, and none was run
    assert ran.returncode in ((0, 1, 2, 5) if found else (0, 5)), text
    return [*dict.fromkeys(found)]


class Trial(NamedTuple):
    """An edit that is tried: its name, its file, its text with the edit and without it, and the tests that may see it."""

    name: str
    path: str
    edited: str
    unedited: str
    tests: list[str]

    def seen_by(self, top: Path, passed_over: list[str]) -> str:
        """The first test of a copy that fails, or ""."""
        (top / self.path).write_text(self.edited)
        found = failing(top, self.tests, passed_over)
        self.restore(top)
        return "".join(found[:1])

    def seen_alone(self, top: Path) -> str:
        """The first test that fails for the edit alone, or ""."""
        passed_over: list[str] = []
        while name := self.seen_by(top, passed_over):
            if name == "no end" or not self.is_failing_without(top, name):
                break
            passed_over.append(name)
        return name

    def is_failing_without(self, top: Path, name: str) -> bool:
        """Whether a test fails for the form alone in which the file is written."""
        (top / self.path).write_text(self.unedited)
        found = failing(top, [name], [])
        self.restore(top)
        return bool(found)

    def restore(self, top: Path) -> None:
        (top / self.path).write_text((TOP / self.path).read_text())


def tried(trials: list[Trial], jobs: int) -> Iterator[tuple[Trial, str]]:
    """Each trial with the test that sees it, or "". The tests that failed are tried without an edit, all at once; each edit of one that fails
    then, too, is tried alone."""
    # In memory an edit takes a third of the time.
    room = os.environ.get("TMPDIR") or ("/dev/shm" if os.access("/dev/shm", os.W_OK) else None)
    with tempfile.TemporaryDirectory(dir=room) as folder, ThreadPoolExecutor(jobs) as pool:
        os.environ["TMPDIR"] = folder
        copies = queue.Queue[Path]()
        for number in range(min(jobs, len(trials))):
            copies.put(copy := Path(folder) / str(number))
            copy.mkdir()
            copy_to(copy)
            compiled(copy)

        def in_a_copy(trial: Trial, is_alone: bool = False) -> str:
            copy, before = copies.get(), spent()
            name = trial.seen_alone(copy) if is_alone else trial.seen_by(copy, [])
            copies.put(copy)
            shown = f"{trial.path}\t{name or 'not seen'}\t{spent() - before:.1f} s"
            print(shown, file=sys.stderr, flush=True)
            return name

        found = [*pool.map(in_a_copy, trials)]
        names = [name for name in dict.fromkeys(found) if name not in ("", "no end")]
        for trial in trials:
            (copies.queue[0] / trial.path).write_text(trial.unedited)
        failed = failing(copies.queue[0], names, [], "99") if names else []
        for trial in trials:
            trial.restore(copies.queue[0])
        for trial, name in zip(trials, found):
            yield trial, in_a_copy(trial, True) if name in failed else name


def spent() -> float:
    """The processor seconds of all tests so far."""
    return sum(resource.getrusage(resource.RUSAGE_CHILDREN)[:2])


def is_comparator(edit: Edit | LineEdit) -> bool:
    """Whether an edit is < for <=, > for >=, or one of these the other way round."""
    if not isinstance(edit, Edit) or edit.field != "ops":
        return False
    changed = [new for old, new in zip(edit.node.ops, edit.value) if new is not old]
    return isinstance(changed[0], (ast.Lt, ast.LtE, ast.Gt, ast.GtE))


def rank(*words: object) -> bytes:
    return hashlib.sha256("\0".join(map(str, words)).encode()).digest()


def of_file(seed: int, path: Path, of_comparators: bool) -> Iterator[Edit | LineEdit]:
    """The edits of a file by the seed, one of each line, so that long tables do not crowd out the rest."""
    lines, by_line = path.read_text().splitlines(), dict[str, list[Edit | LineEdit]]()
    for edit in edits_of(path):
        if not of_comparators or is_comparator(edit):
            by_line.setdefault(lines[edit.line - 1], []).append(edit)
    for text in sorted(by_line, key=lambda text: rank(seed, path.name, text)):
        yield min(by_line[text], key=lambda edit: rank(seed, edit.name()))


def chosen(seed: int, patterns: list[str], of_comparators: bool = False) -> Iterator[Edit | LineEdit]:
    """Edits by the seed, one of each file before the next of each."""
    paths = {path for pattern in patterns for path in TOP.glob(pattern) if path.is_file()}
    edits = [
        of_file(seed, path, of_comparators)
        for path in sorted(paths, key=lambda path: rank(seed, path.relative_to(TOP)))
    ]
    while edits:
        for one in [*edits]:
            edit = next(one, None)
            if edit:
                yield edit
            else:
                edits.remove(one)


def table() -> dict[str, str]:
    """The reasons of mutants.tsv by edits."""
    rows = (TOP / "tests/mutants.tsv").read_text().splitlines()
    return {edit: reason for edit, _, reason in (row.partition("\t") for row in rows)}


def trials_of(seed: int, words: argparse.Namespace) -> Iterator[Trial]:
    """Edits that change the code, and are not known to change nothing."""
    known, is_test = table(), re.compile(r"\S+\.py(::\S+)?$")
    for edit in chosen(seed, words.files, words.comparators):
        edited, unedited = edit.texts()
        reason = known.get(edit.name(), "")
        first = [reason] if is_test.match(reason) else []
        if edited != unedited and (first or not reason):
            tests = words.tests or [*dict.fromkeys([*first, *tests_of(TOP / edit.path, words.near)])]
            yield Trial(edit.name(), edit.path, edited, unedited, tests)


def main() -> int:
    parser = argparse.ArgumentParser(
        description=__doc__, formatter_class=argparse.RawDescriptionHelpFormatter
    )
    parser.add_argument("--seed", type=int, nargs="+", default=[0])
    for name, number in {"--count": 12, "--jobs": 1, "--seconds": SECONDS}.items():
        parser.add_argument(name, type=int, default=number)
    parser.add_argument("--near", type=int)
    usual = ["monitor/rds_monitor/**/*.py", "packaging/[!c]*", "completions/*"]
    parser.add_argument("--files", nargs="+", default=usual)
    parser.add_argument("--tests", nargs="+", help="only these, in this order")
    parser.add_argument("--comparators", action="store_true", help="only < for <=, > for >= and back")
    words = parser.parse_args()
    # of each process by itself, since it is passed on to all
    resource.setrlimit(resource.RLIMIT_CPU, (words.seconds, words.seconds))
    # of all edits at first: jobs that edit one tree at once would be in each other's way
    trials = [trial for seed in words.seed for trial in itertools.islice(trials_of(seed, words), words.count)]
    unseen = 0
    for trial, name in tried(trials, words.jobs):
        unseen += not name
        print(f"{trial.name}\t{name or 'NOT SEEN'}", flush=True)
    print(f"{len(trials) - unseen} of {len(trials)} edits are seen, in {spent():.0f} processor seconds")
    return int(unseen > 0)


if __name__ == "__main__":
    sys.exit(main())
