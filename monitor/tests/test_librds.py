"""The Python module librds: arguments are checked, nothing is wrapped or padded, and arrays are flat."""

from __future__ import annotations

import array
import asyncio
import base64
import ctypes
import dataclasses
import email
import hashlib
import importlib
import inspect
import io
import os
import pickle
import re
import shutil
import socket
import subprocess
import sys

import tracemalloc
import typing
import zipfile
from concurrent.futures import ThreadPoolExecutor
from typing import Callable

import numpy
import pytest

from conftest import TOP, ran

librds = (
    pytest.importorskip("librds")
    if os.path.exists(os.environ["RDS_LIBRARY"])
    else pytest.skip("no library", allow_module_level=True)
)

GROUP = (0xD393, 0x0548, 0xE0CD, 0x5041)


def test_a_buffer_of_bytes_is_needed(station: bytes) -> None:
    wanted, view, flat = librds.totals(station), memoryview(station), numpy.frombuffer(station, "u1")
    every_second = numpy.repeat(flat, 2)[::2]
    parts = memoryview(station + b"x")[:-1], view.cast("c"), every_second
    assert all(librds.totals(data) == wanted for data in (bytearray(station), view, flat, *parts))
    for data in (25000, "text", [1, 2], None, *(numpy.zeros(8, form) for form in "?hHiIlLefd")):
        for call in (librds.totals, librds.Follower().push):
            with pytest.raises(TypeError):
                call(data)


def test_no_room_is_lent_twice() -> None:
    """Calls of several threads run at the same time."""
    with librds._lent_room(0) as one, librds._lent_room(0) as other:
        assert one is not other


def refusal(call: Callable[[], object]) -> int:
    """The number of the error that a call raises."""
    with pytest.raises(librds.Refused) as error:
        call()
    return int(error.value.number)


def test_a_group_is_four_words_of_16_bits() -> None:
    assert len(librds.encode([GROUP, list(GROUP)])) == 26
    for group in ((1, 2, 3), (1, 2, 3, 4, 5), (1, 2, 3, 65536), (1, 2, 3, -1)):
        with pytest.raises(ValueError):
            librds.encode([group])
    with pytest.raises(TypeError):
        librds.encode([(1, 2, 3, 4.0)])


def test_the_words_of_a_group() -> None:
    """Sync is acquired on a block 2, so the first group lacks its block 1."""
    for words in (GROUP, (0, 0, 0, 0)):
        items = librds.items(librds.encode([words] * 3))
        groups = [item.words for item in items if isinstance(item, librds.Group)]
        assert groups == [(None, *words[1:]), words, words]


# By the number of the error, rules that it refuses.
RULES = {
    1: [(6,), (-1,), (2**32 + 2,)],
    2: [(2, 0), (2, 2**32 + 3)],
    3: [(2, 3, 0), (2, 3, 2**64 + 10)],
}
RULES[15] = [(2, 3, 5, 65), (2, 3, 5, -1)]


@pytest.mark.parametrize("rules, number", [(rules, number) for number in RULES for rules in RULES[number]])
def test_limits_are_ranges(rules: tuple, number: int) -> None:
    assert refusal(lambda: librds.totals(b"", rules=librds.Rules(*rules))) == number
    with pytest.raises(TypeError):
        librds.totals(b"", rules=librds.Rules(burst=2.0))


def test_words_and_their_limits() -> None:
    packed = int.from_bytes(librds.encode([GROUP]), "big")
    assert librds.correct(packed >> 78, "A") == librds.Block(librds.Kind.VALID, "A", 0xD393)
    assert librds.remainder(packed >> 78) == 0xFC
    for word in (2**64, -1, 2**26):
        assert refusal(lambda: librds.remainder(word)) == 67
    assert refusal(lambda: librds.correct(1, "E")) == 68
    for limit in (6, -1, 256, 2**64):
        assert refusal(lambda: librds.correct(1, "A", limit)) == 1
    # by the default limit
    assert librds.correct(0x095_00C8 ^ 0x18, "A").kind == librds.Kind.CORRECTED
    assert librds.correct(0x095_00C8 ^ 0x38, "A").kind == librds.Kind.LOST
    assert librds.correct(0x384_0283, "C or Cx") == librds.Block(librds.Kind.CORRECTED, "Cx", 0xE100, 0x30)
    assert librds.correct(0x384_0283, "C").kind == librds.Kind.LOST
    for name, spelled in (("Cx", "C'"), ("C or Cx", "C or C'")):
        assert librds.correct(0x384_0283, name) == librds.correct(0x384_0283, spelled)


def test_places_and_gaps(station: bytes) -> None:
    for bits, number in ((200001, 4), (2**64 - 1, 5)):
        for call in (librds.totals, librds.items_array, lambda *it: list(librds.items(*it))):
            assert refusal(lambda: call(station, bits)) == number
    for bits in (-1, 2**64):
        with pytest.raises(OverflowError):
            librds.totals(station, bits)
    with pytest.raises(ValueError, match="two places"):
        librds.totals(station, gaps=[(1, 2, 3)])
    with pytest.raises(OverflowError):
        librds.totals(station, gaps=[(-1, 2)])
    with pytest.raises(librds.Refused, match="16 BadGaps"):
        librds.totals(station, gaps=[(5, 5)])


def test_memory_is_by_the_bytes() -> None:
    code = (
        "import resource, librds; resource.setrlimit(resource.RLIMIT_AS, (1 << 30,) * 2)\n"
        "try: librds.items_array(b'x', 2**36)\nexcept librds.Refused as error: print(error.number)\n"
        "try: list(librds.items(b'x', 2**36))\nexcept librds.Refused as error: print(error.number)"
    )
    done = ran([sys.executable, "-c", code])
    assert done.stdout == "4\n4\n", done.stderr


def test_errors_can_be_pickled() -> None:
    again = pickle.loads(pickle.dumps(librds.Refused(5)))
    assert (again.number, again.name, str(again)) == (5, "TooLong", "refused 5 TooLong: more than 2^36 bits")
    assert librds.Refused(300).name == ""
    memory = pickle.loads(pickle.dumps(librds.Refused(8)))
    assert type(memory) is librds.OutOfMemory and isinstance(memory, (MemoryError, librds.Refused))
    assert str(memory) == "refused 8 OutOfMemory: out of memory"
    other = pickle.loads(pickle.dumps(librds.Refused(65, 74)))
    assert (other.number, other.cause, other.name) == (65, librds.Error.OTHER_RULES, "UnlawfulState")
    assert other.reason == "a stream that is decoded by other rules"


def test_memory_that_is_refused() -> None:
    code = (
        "import resource, librds; data = bytes(100 << 20)\n"
        "held = int(open('/proc/self/statm').read().split()[0]) * resource.getpagesize()\n"
        "resource.setrlimit(resource.RLIMIT_AS, (held + (50 << 20),) * 2)\n"
        "try: librds.totals(data)\nexcept MemoryError as it: print(repr(it))"
    )
    assert ran([sys.executable, "-c", code]).stdout == "OutOfMemory('refused 8 OutOfMemory: out of memory')\n"


@pytest.mark.parametrize("rules", [None, (2, 3, 10, 0), "2"])
def test_rules_are_rules(rules: object) -> None:
    for call in (librds.totals, librds.items, librds.items_array, lambda _, rules: librds.Follower(rules)):
        with pytest.raises(TypeError, match="rules are a librds.Rules, not"):
            call(b"", rules=rules)


def test_rows_are_flat_and_typed(station: bytes) -> None:
    rows = librds.items_array(station)
    assert rows.dtype == librds.ITEM and rows.dtype.itemsize == 48 and len(rows) == 1924
    assert (rows["what"] == [1, *[2] * 1923]).all() and rows["place"][1] == 26
    assert tuple(rows[2][f"info{n}"] for n in (1, 2, 3, 4)) == (0xD393, 0x0549, 0xE100, 0x584F)
    assert [rows[1][f"kind{n}"] for n in (1, 2, 3, 4)] == [0, 2, 2, 2] and rows[2]["offset3"] == 3
    assert (rows[2]["number"], rows[2]["version"], rows[2]["conflict"]) == (0, 1, 0)
    from rds_monitor.rows.items import ITEM

    assert ITEM == librds.ITEM


def test_pandas_takes_them(station: bytes) -> None:
    pandas = pytest.importorskip("pandas")
    frame = pandas.DataFrame(librds.items_array(station))
    assert list(frame.columns) == list(librds.ITEM.names)
    assert (frame.number[frame.what == 2] == 2).sum() == 1184


def test_a_stream_in_arrays(station: bytes) -> None:
    bits, follower = 100003, librds.Follower()
    rows = [
        follower.push_array(station[begin : min(begin + 777, bits // 8)])
        for begin in range(0, bits // 8, 777)
    ]
    last, totals = follower.finish_array(station[bits // 8 :][:1], bits % 8)
    assert (numpy.concatenate([*rows, last]) == librds.items_array(station, bits)).all()
    assert totals == librds.totals(station, bits)
    again = pickle.loads(pickle.dumps(follower))
    assert again.stream == follower.stream and again.place == bits // 8 * 8


def test_threads_may_share_a_follower(station: bytes) -> None:
    follower, alone = librds.Follower(), librds.Follower()

    def work(_: int) -> int:
        return sum(len(follower.push_array(station)) for _ in range(40))

    with ThreadPoolExecutor(4) as pool:
        counts = [*pool.map(work, range(4))]
    assert sum(counts) == len(alone.push_array(station * 160)) and follower.stream == alone.stream


def installed(python: str, inside: "os.PathLike[str]", wheel: str, environment: dict) -> bool:
    """Whether a fresh environment was made, and has the wheel."""
    install = f"-m pip --python {inside} install -q --no-index --disable-pip-version-check".split()
    folder = os.path.dirname(os.path.dirname(inside))
    commands = ([python, "-m", "venv", "--without-pip", folder], [python, *install, wheel])
    options = {"env": environment, "capture_output": True}
    return all(subprocess.run(command, **options).returncode == 0 for command in commands)


BINDINGS = TOP / "bindings" / "python"
LIBRARY = os.path.realpath(os.environ["RDS_LIBRARY"])


def wheel_of(library: object, folder: object) -> "subprocess.CompletedProcess[str]":
    return ran([sys.executable, BINDINGS / "make_wheel.py", library, folder])


def without(*names: str) -> dict:
    """The environment but for these variables."""
    return {key: value for key, value in os.environ.items() if key not in names}


def test_a_wheel_with_the_library(tmp_path, station: bytes) -> None:
    """It is installed into a fresh environment, where nothing else knows of the library."""
    made, again = (wheel_of(LIBRARY, tmp_path).stdout.strip() for _ in range(2))
    assert made == again and "-py3-none-manylinux_2_17_" in made
    inside, environment = tmp_path / "venv" / "bin" / "python", without("RDS_LIBRARY", "PYTHONPATH")
    if not any(installed(name, inside, made, environment) for name in ("python3", sys.executable)):
        pytest.skip("there is no pip of 22.3 or later, or no venv")
    code = "import sys, librds; print(librds.__file__); print(librds.totals(sys.stdin.buffer.read()).groups)"
    options = {"input": station, "capture_output": True, "env": environment, "check": True, "cwd": tmp_path}
    (package,) = (tmp_path / "venv").glob("lib/*/site-packages/librds")
    done = subprocess.run([inside, "-c", code], **options)
    assert done.stdout.decode().split() == [str(package / "__init__.py"), "1923"]
    other = wheel_of(next(name for name in ("/bin/bash", "/bin/ls") if os.path.exists(name)), tmp_path)
    assert other.returncode == 1 and "a wheel cannot need" in other.stderr


# ---- calls that the table of tests/library does not have

DENSE = librds.Rules(0, 8, 1)


@pytest.fixture(scope="module")
def dense() -> bytes:
    """A recording with 24 items per 27 bytes: a push of it has more than its room."""
    make = [sys.executable, str(TOP / "tests" / "worst_inputs.py"), "short_locks", "4000"]
    return subprocess.run(make, capture_output=True, check=True).stdout


def test_a_push_in_parts(dense: bytes, monkeypatch: pytest.MonkeyPatch) -> None:
    whole = librds.items_array(dense, rules=DENSE)
    assert len(whole) > 2 * (16 + len(dense) // 4)
    by_items, by_rows = librds.Follower(DENSE), librds.Follower(DENSE)
    items, rows = by_items.push(dense), by_rows.push_array(dense)
    last, totals = by_rows.finish_array()
    assert numpy.array_equal(numpy.concatenate([rows, last]), whole)
    assert totals == librds.totals(dense, rules=DENSE)
    assert items == list(librds.items(dense, rules=DENSE))[: len(rows)] and by_items.stream == by_rows.stream
    # the memory for a second part is missing: the stream is as it was
    before, real, calls, more = by_items.stream, librds._values, [], 4 * dense

    def once(room: object, count: int) -> object:
        calls.append(count)
        if len(calls) > 1:
            raise MemoryError
        return real(room, count)

    monkeypatch.setattr(librds, "_values", once)
    with pytest.raises(MemoryError):
        by_items.push(more)
    assert len(calls) == 2 and by_items.stream == before


def test_no_bytes_and_signed_bytes(station: bytes) -> None:
    assert librds.Follower().push(b"") == [] and len(librds.Follower().push_array(b"")) == 0
    for data in (array.array("b", station), numpy.frombuffer(station, "i1")):
        assert librds.totals(data) == librds.totals(station)


def test_a_follower_refuses_at_once(station: bytes) -> None:
    by_other_rules = librds.Follower(librds.Rules(burst=1))
    by_other_rules.push(station[:100])
    stream = by_other_rules.stream
    assert refusal(lambda: librds.Follower(librds.Rules(burst=6))) == 1
    assert refusal(lambda: librds.Follower(gaps=[(5, 5)])) == 16
    assert refusal(lambda: librds.Follower(stream=stream)) == librds.Error.UNLAWFUL_STATE
    assert refusal(lambda: librds.items(b"", rules=librds.Rules(burst=6))) == 1
    for length in (255, 257):
        with pytest.raises(ValueError, match="256 bytes"):
            librds.Follower(stream=bytes(length))


def test_a_stream_that_cannot_be_continued(station: bytes) -> None:
    """Each cause by its name: the stream's first number, its version, its rules, and any other damage."""
    follower = librds.Follower()
    follower.push(station[:100])
    stream = follower.stream
    for damaged, cause in (
        (b"x" * 256, librds.Error.NOT_A_STREAM),
        (stream[:4] + b"\2" + stream[5:], librds.Error.OTHER_VERSION),
        (stream[:8] + b"\1" + stream[9:], librds.Error.OTHER_RULES),
        (stream[:-1] + b"\1", librds.Error.UNLAWFUL_STATE),
    ):
        with pytest.raises(librds.Refused) as error:
            librds.Follower(stream=damaged)
        assert (error.value.number, error.value.cause) == (librds.Error.UNLAWFUL_STATE, cause)


def test_gaps_are_taken_once(station: bytes) -> None:
    """A stream's gaps are looked at when it begins, and not again by each push."""
    seen = []

    class Gap(tuple):
        def __iter__(self) -> typing.Iterator[int]:
            seen.append(self)
            return super().__iter__()

    gaps = [Gap((k, k + 1)) for k in range(0, 2000, 2)]
    follower = librds.Follower(gaps=gaps)
    before = len(seen)
    for k in range(0, 1000, 10):
        follower.push(station[k : k + 10])
    assert before == len(seen) == 1000 and follower.finish()[1] == librds.totals(station[:1000], gaps=gaps)


def test_memory_of_a_long_push() -> None:
    """A push needs memory for the items that it gives, and not for those that might come: of zeros there are none."""
    data = bytes(8 << 20)
    tracemalloc.start()
    items = librds.Follower().push(data), librds.Follower().push_array(data)
    most = tracemalloc.get_traced_memory()[1]
    tracemalloc.stop()
    assert (len(items[0]), len(items[1])) == (0, 0) and most < 3 << 20


# ---- files and sockets


@pytest.fixture
def cut(station: bytes) -> bytes:
    """A station whose last group is not whole, so that it comes only at the end."""
    return station[:-5]


def test_items_of_a_file(cut: bytes, tmp_path) -> None:
    path = tmp_path / "station.bin"
    path.write_bytes(cut)
    wanted = list(librds.items(cut))
    for buffering in (-1, 0):
        with open(path, "rb", buffering) as file:
            assert list(librds.read(file)) == wanted
    assert list(librds.read(io.BytesIO(cut))) == wanted
    with open(path, encoding="latin-1") as file:
        with pytest.raises(TypeError):
            list(librds.read(file))


def test_items_of_a_socket_as_they_come(cut: bytes) -> None:
    """Each is there once its last bit was sent. After a timeout, and without bytes, reading goes on where it was."""
    sender, receiver = socket.socketpair()
    follower = librds.Follower(librds.Rules(burst=0), [(104, 130)])
    wanted = librds.items(cut, None, [(104, 130)], librds.Rules(burst=0))
    with sender, receiver:
        items = librds.read(receiver, follower)
        sender.sendall(cut[:40])
        found = [next(items) for _ in range(3)]
        assert follower.place == 8 * 40
        receiver.settimeout(0.01)
        with pytest.raises(TimeoutError if sys.version_info >= (3, 10) else socket.timeout):
            found += items
        receiver.setblocking(False)
        with pytest.raises(BlockingIOError):
            found += librds.read(receiver, follower)
        receiver.setblocking(True)
        sender.sendall(cut[40:])
        sender.close()
        found += librds.read(receiver, follower)
    assert found == list(wanted) and follower.finish()[1].groups == 1923


def test_a_pipe_without_bytes() -> None:
    reading, writing = os.pipe()
    os.set_blocking(reading, False)
    with open(reading, "rb", 0) as file, open(writing, "wb"):
        with pytest.raises(BlockingIOError, match="the stream has no bytes yet"):
            next(librds.read(file))


def test_items_of_an_asynchronous_reader(cut: bytes) -> None:
    async def items() -> list:
        reader = asyncio.StreamReader()
        reader.feed_data(cut[:40])
        found, follower = [], librds.Follower()
        async for item in librds.read_async(reader, follower):
            found.append(item)
            if follower.place == 8 * 40 and len(found) == 3:
                reader.feed_data(cut[40:])
                reader.feed_eof()
        assert follower.finish()[1] == librds.totals(cut)
        return found

    assert asyncio.run(items()) == list(librds.items(cut))


def test_a_follower_keeps_its_gaps_and_rules(station: bytes) -> None:
    rules, gaps = librds.Rules(0, 2, 5, 20), [(104, 130), (90000, 90999)]
    follower = librds.Follower(rules, iter(gaps))
    items = follower.push(station[:9999])
    again = pickle.loads(pickle.dumps(follower))
    for value in (follower, again):
        last, totals = value.finish_with(station[9999:])
        assert items + last == list(librds.items(station, None, gaps, rules))
        assert totals == librds.totals(station, None, gaps, rules)
    before, changed = librds.totals(station, None, gaps, rules), librds.Follower(rules, gaps)
    gaps.clear()
    assert changed.finish_with(station)[1] == before


def test_each_end_of_a_stream_is_the_same(station: bytes) -> None:
    """Wherever it is cut, inside a block too."""
    for end in range(100, 114):
        follower = librds.Follower()
        follower.push(station[:end])
        (group, totals), (rows, of_rows), (items, of_items) = (
            follower.finish(),
            follower.finish_array(),
            follower.finish_with(b""),
        )
        assert totals == of_rows == of_items == librds.totals(station[:end])
        assert items == ([] if group is None else [group])
        assert rows["place"].tolist() == [item.place for item in items]
        assert follower.place == 8 * end


def test_defaults() -> None:
    """The rules are those of rds.h, and a function's other defaults leave nothing out."""
    header = (TOP / "lib" / "rds.h").read_text()
    (numbers,) = re.findall(r"define RDS_RULES \{(\d+), (\d+), (\d+), (\d+),", header)
    assert dataclasses.astuple(librds.Rules()) == tuple(map(int, numbers))
    (margin,) = re.findall(r"define RDS_MARGIN (\d+)", header)
    wanted = dict(bits=None, gaps=(), limit=int(numbers[0]), stream=bytes(256), data=b"", margin=int(margin))
    wanted |= dict(rules=librds.Rules(), offset=None, info=None, burst=0, cause=0, follower=None)
    others = ("ITEM", "Rules", "Kind", "Error")
    calls = [getattr(librds, name) for name in librds.__all__ if name not in others]
    calls += filter(inspect.isfunction, vars(librds.Follower).values())
    parameters = [found for call in calls for found in inspect.signature(call).parameters.items()]
    found = {(name, value.default) for name, value in parameters if value.default is not value.empty}
    assert found == {*wanted.items()}


def test_names_and_texts_of_the_module() -> None:
    """Names, kinds of values, and the examples in its texts."""
    own = {name for name, value in vars(librds).items() if getattr(value, "__module__", "") == "librds"}
    public = {name for name in own if name[0] != "_"}
    assert set(librds.__all__) == {*public, "ITEM"} and len(librds.__all__) == len(public) + 1
    assert issubclass(librds.Refused, ValueError)
    values = [value for value in vars(librds).values() if dataclasses.is_dataclass(value)]
    assert len(values) == 6 and all(value.__dataclass_params__.frozen for value in values)
    assert len({librds.Rules(), librds.Rules(2), librds.Totals(0, (), 0, 0, 0, 0, 0, 0)}) == 2
    # A call of any other kind of library holds up Python's other threads.
    assert type(librds._library) is ctypes.CDLL
    with pytest.raises(AttributeError):
        librds.Rules().burst = 3
    assert {bytes, bytearray, memoryview} <= set(typing.get_args(librds.Buffer))
    texts = "\n".join(getattr(librds, name).__doc__ or "" for name in librds.__all__)
    examples = re.findall(r"^ *(librds\..* == .*)", texts, re.M)
    assert len(examples) == 3 and all(eval(example, {"librds": librds}) for example in examples), examples


def test_which_library_is_loaded(tmp_path) -> None:
    """That of RDS_LIBRARY, the one beside the module, the system's, the linker's. None takes the place of a named one;
    another library, or an older one, is an error."""
    package, system = tmp_path / "librds", tmp_path / "system"
    shutil.copytree(os.path.dirname(librds.__file__), package, ignore=shutil.ignore_patterns("__pycache__"))
    system.mkdir()
    (system / "librds.so.0").symlink_to(LIBRARY)
    own = package / "librds.so.0"

    def loaded(first: str = "", **more: str) -> str:
        code = f"import sys, ctypes.util; sys.path.insert(0, {str(tmp_path)!r}); {first}"
        words = [sys.executable, "-c", f"{code}\nimport librds; print(librds._library._name)"]
        done = ran(words, env={**without("RDS_LIBRARY"), "PYTHONPATH": str(tmp_path), **more})
        return done.stdout.strip() or done.stderr

    linker, cure = (
        f"ctypes.util.find_library = {{'rds': {LIBRARY!r}}}.get",
        "install librds (make install-lib)",
    )
    none = loaded(linker, RDS_LIBRARY=str(tmp_path / "none"))
    assert f"{cure}, or name its librds.so.0 in RDS_LIBRARY" in none
    if cure in loaded():  # else the system has one
        assert loaded(linker) == LIBRARY
    assert loaded(LD_LIBRARY_PATH=str(system)) == "librds.so.0"
    own.symlink_to(LIBRARY)
    assert loaded(LD_LIBRARY_PATH=str(system)) == str(own)
    own.unlink()
    own.write_bytes(b"no library")
    assert loaded(RDS_LIBRARY=LIBRARY) == LIBRARY
    other = {"RDS_LIBRARY": "libc.so.6"}
    assert "libc.so.6: this is not librds, or an older one: it has no rds_totals" in loaded(**other)
    for version in ("0.99.0", "-1.0.0"):
        late = f"import librds._ffi as module; module.VERSION = ({version.replace('.', ',')}); module.load()"
        assert f"but this module needs {version} or later" in ran([sys.executable, "-c", late]).stderr
    ffi = importlib.import_module("librds._ffi")
    nodes = re.findall(r"^RDS_(\d+)\.(\d+) \{(.*?)\}", (TOP / "lib" / "rds.map").read_text(), re.M | re.S)
    needed = [node[:2] for node in nodes if any(f"{function};" in node[2] for function in ffi.FUNCTIONS)]
    latest = max(tuple(map(int, node)) for node in needed)
    assert latest == ffi.VERSION[:2] and ffi.VERSION <= librds.version()


def test_files_and_sums_of_a_wheel(tmp_path) -> None:
    """Its needs are those of pyproject.toml. A library of another processor has no wheel."""
    path = wheel_of(LIBRARY, tmp_path).stdout.strip()
    with zipfile.ZipFile(path) as wheel:
        files = {name: wheel.read(name) for name in wheel.namelist()}
        forms = {(one.date_time, one.external_attr >> 16, one.compress_type) for one in wheel.infolist()}
    # So the same library gives the same bytes, and all may read the installed files.
    assert forms == {((1980, 1, 1, 0, 0, 0), 0o100644, zipfile.ZIP_DEFLATED)}
    record = next(name for name in files if name.endswith("/RECORD"))
    lines = [name.split(",") for name in files[record].decode().splitlines()]
    assert {name for name, *_ in lines} == set(files)
    for name, sum_of, length in lines:
        if name != record:
            wanted = base64.urlsafe_b64encode(hashlib.sha256(files[name]).digest()).rstrip(b"=").decode()
            assert (sum_of, length) == (f"sha256={wanted}", str(len(files[name])))
    package = {file.partition("/")[2] for file in files if file.startswith("librds/")}
    assert package == {"__init__.py", "_ffi.py", "py.typed", "librds.so.0"}
    project = (BINDINGS / "pyproject.toml").read_text()
    texts = [files[record.replace("RECORD", name)] for name in ("METADATA", "WHEEL")]
    says, form = map(email.message_from_bytes, texts)
    for line in (
        f'requires-python = "{says["Requires-Python"]}"',
        f'version = "{says["Version"]}"',
        'arrays = ["numpy"]',
        'package-data = { librds = ["py.typed"] }',
    ):
        assert line in project
    name = f"librds-{says['Version']}-{form['Tag']}.whl"
    assert (form["Root-Is-Purelib"], name) == ("false", os.path.basename(path))
    assert says.get_all("Provides-Extra") == ["arrays"]
    assert says.get_all("Requires-Dist") == ["numpy; extra == 'arrays'"]
    listed = re.findall(r'^    "(.*)",$', project, re.M)
    assert len(listed) > 3 and says.get_all("Classifier") == listed and "RDS" in says["Keywords"].split(",")
    assert says["Description-Content-Type"] == "text/markdown"
    assert says.get_payload() == (BINDINGS / "README.md").read_text()
    other, data = tmp_path / "other.so", bytearray(open(LIBRARY, "rb").read())
    other.write_bytes(data.replace(b"GLIBC_2.14\0", b"GLIBC_2.34\0"))
    if other.read_bytes() != data:  # else another processor's library
        assert "-py3-none-manylinux_2_34_" in wheel_of(other, tmp_path).stdout
    other.write_bytes(data.replace(b"libc.so.6\0", b"libm.so.6\0"))
    assert "a wheel cannot need libm.so.6" in wheel_of(other, tmp_path).stderr
    data[18:20] = (243).to_bytes(2, "little")  # of RISC-V
    other.write_bytes(data)
    for value in (other, BINDINGS / "make_wheel.py"):
        done = wheel_of(value, tmp_path)
        assert done.returncode == 1 and "no library of x86_64 or aarch64" in done.stderr
