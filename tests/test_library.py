"""The library for C, Rust and Python: its names, its calls beside tests/plain.py and the program, and the programs shown to users.

calls.c makes the calls: compiled against the header of version 0.2 and run with the shared library, with the archive under valgrind, and
by emulators on the oldest x86-64 and on arm64.
"""

from __future__ import annotations

import csv
import ctypes
import importlib
import io
import itertools
import os
import random
import re
import select
import shutil
import subprocess
import sys
from concurrent.futures import ThreadPoolExecutor
from pathlib import Path
from types import ModuleType
from typing import Any, Callable

import plain
import pytest
import worst_inputs
from library import border, calls, table
from library.calls import Answer, Call, ask, drawn
from running import LIMIT, TOP, Ran, first_program, needs, run, said, wrote

pytestmark = pytest.mark.xdist_group("library")

HERE = TOP / "tests" / "library"
SAMPLE = TOP / "examples" / "station.bin"
CC = os.environ.get("CC", "cc")
STRICT = ["-D_DEFAULT_SOURCE", "-Wall", "-Wextra", "-Wpedantic", "-Werror", "-O2"]
HEADER = (TOP / "lib" / "rds.h").read_text()
Cases = Callable[[int], None]


@pytest.fixture(scope="session")
def folder(tmp_path_factory: pytest.TempPathFactory) -> Path:
    return tmp_path_factory.mktemp("library")


# ---- names and data of the libraries

DECLARED = sorted(re.findall(r"^[a-z0-9_ ]*[ *](rds_[a-z_]*)\((?!.*\{)", HEADER, re.M))
# the first is the linker's, for what each thread has of its own
NEEDED = "_GLOBAL_OFFSET_TABLE_ __stack_chk_fail free malloc memcpy memmove memset realloc strlen".split()


def symbols(*words: object) -> list[list[str]]:
    """The fields of each line of nm."""
    return sorted((line.split() for line in said("nm", *words).splitlines()), key=lambda row: row[-1:])


def test_exported_names(librds: str, cases: Cases) -> None:
    cases(4)
    shown = symbols("-D", "--defined-only", f"{librds}/librds.so.0")
    assert [row[2].split("@")[0] for row in shown if row[1] == "T"] == DECLARED
    archive = f"{librds}/librds.a"
    assert [row[2] for row in symbols("--defined-only", "-g", archive) if len(row) == 3] == DECLARED
    assert [row[1] for row in symbols("-u", archive) if len(row) == 2] == NEEDED
    # an array of no values is handed on as this, which has the alignment of max_align_t
    assert [row[1] for row in symbols("-S", archive) if row[-1:] == ["none"]] == ["0000000000000020"]


def test_no_call_keeps_anything(librds: str) -> None:
    """No data can be written but two that are only pointed at, and the scratch that a call lends its thread."""
    rows = [line.split("|") for line in said("nm", "-f", "sysv", f"{librds}/librds.a").splitlines()]
    read_only = re.compile(r"\.text|\.rodata|\.data\.rel\.ro|\*(UND|ABS)\*|$")
    writable = [row[0].strip() for row in rows if len(row) > 6 and not read_only.match(row[6].strip())]
    assert sorted(writable) == ["heap_scratch", "none", "nowhere"]


def test_first_instruction_of_each_function(librds: str) -> None:
    needs("objdump")
    code = said("objdump", "-d", "--no-show-raw-insn", f"{librds}/librds.so.0")
    first = re.findall(r"^[0-9a-f]+ <rds_[a-z_]+(?:@.*)?>:\n +\w+:\s+(\w+)", code, re.M)
    assert {*first} == {"endbr64"} and len(first) >= len(DECLARED)


def test_files_of_the_library(librds: str, cases: Cases) -> None:
    cases(5)
    both = [f"{librds}/{name}" for name in ("librds.so", "librds.so.0")]
    # `rt ci` refuses a tree with a symbolic link.
    assert os.path.samefile(*both) and not any(map(os.path.islink, both))
    assert Path(f"{librds}/rds.h").read_text() == HEADER
    for name in ("librds.a", "librds.so.0"):
        held = Path(f"{librds}/{name}").read_bytes()
        assert not any(path in held for path in (b"\n/tmp/", b"\0/tmp/", f"{TOP}/".encode()))
    row = said("ar", "tv", f"{librds}/librds.a", env={**os.environ, "TZ": "UTC"}).split()
    assert [row[1], row[-2], row[-1]] == ["0/0", "1970", "rds.o"]


@pytest.mark.parametrize("start, is_taken", [("return", True), ("", False)])
def test_an_error_that_nobody_looks_at(start: str, is_taken: bool, tmp_path: Path) -> None:
    text = f"#include <rds.h>\nint main(void) {{ uint16_t found; {start} rds_remainder(0, &found); }}\n"
    words = [CC, "-std=c11", *STRICT, f"-I{TOP}/lib", "-x", "c", "-c", "-o", tmp_path / "looks.o", "-"]
    assert (run(*words, data=text.encode()).status == 0) == is_taken


# ---- the library of version 0.2


def stub(answer: str) -> str:
    """The functions of version 0.2 with this body."""
    pattern = r"^(?:RDS_MUST_USE )?((?:uint|const)[^;]*\));"
    declared = re.findall(pattern, (HERE / "rds_0_2.h").read_text(), re.M)
    bodies = (f"{one} {{ return {'__func__' if one[0] == 'c' else answer}; }}" for one in declared)
    return "\n".join(['#include "rds.h"', *bodies])


def make_earlier(folder: Path) -> Path:
    """Folders of libraries with the names of 0.2: `none` does nothing, `refusing` refuses each call."""
    for name, answer in (("none", "0"), ("refusing", "5")):
        made = folder / "earlier" / name
        made.mkdir(parents=True)
        shutil.copy(HERE / "rds_0_2.h", made / "rds.h")
        (made / "stub.c").write_text(stub(answer))
        (made / "stub.map").write_text("RDS_0.2 { global: rds_*; local: *; };\n")
        words = ["-std=c11", "-g", "-fPIC", "-Wall", "-Werror", "-shared", "-Wl,-soname,librds.so.0"]
        words += [f"-Wl,--version-script={made}/stub.map", "-o", f"{made}/librds.so.0", f"{made}/stub.c"]
        wrote(CC, *words)
    return folder / "earlier"


@pytest.fixture(scope="session")
def earlier(folder: Path) -> Path:
    return make_earlier(folder)


def test_names_calls_and_structs_of_0_2(librds: str, earlier: Path) -> None:
    needs("abidiff")
    wrote("abidiff", "--no-added-syms", earlier / "none" / "librds.so.0", f"{librds}/librds.so.0")


# ---- programs that call the library

VARIANTS = ["0.2", "archive", "valgrind", "core2", "arm64"]
OF_ARM64 = ["qemu-aarch64", "aarch64-linux-gnu-gcc"]
TOOLS = {"valgrind": ["valgrind"], "core2": ["qemu-x86_64"], "arm64": OF_ARM64}


class Programs:
    """calls.c in several variants, each made once: the words that run it."""

    def __init__(self, librds: str, arm64: str | None, earlier: Path, folder: Path) -> None:
        self.librds, self.arm64, self.earlier, self.folder = librds, arm64, earlier, folder
        self.made: dict[str, list[str]] = {}

    def __call__(self, variant: str) -> list[str]:
        needs(*TOOLS.get(variant, []))
        if variant not in self.made:
            self.made[variant] = self.make(variant)
        return self.made[variant]

    def make(self, variant: str) -> list[str]:
        path, source = str(self.folder / f"calls-{variant}"), str(HERE / "calls.c")
        words = ["-std=c11", *STRICT, "-o", path, source]
        if variant == "0.2":
            old = self.earlier / "none"
            wrote(CC, "-DOF_0_2", *words, f"-I{old}", old / "librds.so.0", f"-Wl,-rpath,{self.librds}")
            return [path]
        if variant == "valgrind":
            wrote(CC, *words, f"-I{self.librds}", f"{self.librds}/librds.a")
            return ["valgrind", "-q", "--error-exitcode=99", "--leak-check=full", path]
        refusing = ["-DREFUSING", *words]
        if variant == "arm64":
            assert self.arm64, "there is no library for arm64: `make lib ARCH=arm64` builds it"
            wrote("aarch64-linux-gnu-gcc", *refusing, f"-I{self.arm64}", f"{self.arm64}/librds.a")
            return ["qemu-aarch64", "-L", "/usr/aarch64-linux-gnu", path]
        wrote(CC, *refusing, f"-I{self.librds}", f"{self.librds}/librds.a")
        return ["qemu-x86_64", "-cpu", "core2duo", path] if variant == "core2" else [path]


@pytest.fixture(scope="session")
def programs(librds: str, librds_arm64: str | None, earlier: Path, folder: Path) -> Programs:
    return Programs(librds, librds_arm64, earlier, folder)


# ---- one table of calls with their answers

TABLE = dict(line.split(" = ") for line in (HERE / "cases.txt").read_text().splitlines())
ERRORS = {int(text.split()[1]): text.split()[2] for asked, text in TABLE.items() if asked.startswith("name ")}


@pytest.mark.parametrize("variant", VARIANTS)
def test_table_in_c(programs: Programs, variant: str, cases: Cases) -> None:
    cases(len(TABLE))
    asked = [*map(table.call_of, TABLE)]
    rows = zip(TABLE, asked, ask(programs(variant), asked))
    assert {text: table.answer_text(text, call, answer, ERRORS) for text, call, answer in rows} == TABLE


def test_program_of_0_2_without_the_library(programs: Programs, earlier: Path) -> None:
    words = ["env", f"LD_LIBRARY_PATH={earlier}/none", *programs("0.2")]
    assert ask(words, [table.call_of("remainder 1")]) == [Answer()]


def test_table_by_plain() -> None:
    """It knows neither names nor versions."""
    known = {text: call for text in TABLE if (call := table.call_of(text)).name in calls.ANSWERS}
    for text, call in known.items():
        assert table.answer_text(text, call, calls.answer_of(call), ERRORS) == TABLE[text], text
    assert len(known) == 80


@pytest.fixture(scope="session")
def module(librds: str) -> ModuleType:
    """librds of Python."""
    os.environ["RDS_LIBRARY"] = f"{librds}/librds.so.0"
    sys.path.insert(0, f"{TOP}/bindings/python")
    pytest.importorskip("numpy")
    return importlib.import_module("librds")


def test_table_in_python(module: ModuleType) -> None:
    assert {text: table.python_text(module, text) for text in TABLE} == TABLE


# ---- random calls, and refused allocations

# How many seeds each variant has: an emulator is slow, and the shared library has the objects of the archive. rds_check and rds_push_with came after 0.2.
SEEDS = {"0.2": 100, "archive": 300, "valgrind": 10, "core2": 30, "arm64": 30}
AFTER_0_2 = ("check", "push_with")
STACK = 8192


def answer_as_plain(variant: str, command: list[str], seeds: range) -> int:
    """Whether all calls of these seeds are answered as plain.py answers them; gives their number."""
    asked = [one for one in drawn(seeds) if variant != "0.2" or one.call.name not in AFTER_0_2]
    for one, given in zip(asked, ask(command, [one.call for one in asked])):
        assert variant != "archive" or given.stack <= STACK, f"{one.call.name}: {given.stack} bytes of stack"
        # a push with scratch takes no other memory
        most = given.most if one.call.name == "push_with" else 0
        assert one.is_answered(given._replace(most=most, stack=0)), f"{one}: {given}"
    return len(asked)


@pytest.mark.parametrize("variant", VARIANTS)
def test_random_calls(programs: Programs, variant: str, cases: Cases) -> None:
    command, last = programs(variant), SEEDS[variant] + 1
    parts = [range(first, min(first + 100, last)) for first in range(1, last, 100)]
    cases(sum(answer_as_plain(variant, command, seeds) for seeds in parts))


@pytest.mark.parametrize("variant", ["archive", "core2", "arm64"])
def test_refused_allocations(programs: Programs, variant: str, cases: Cases) -> None:
    """Each allocation of a call is refused, alone and with all after it: the answer is its own, or nothing is written."""
    recording = Call("items", SAMPLE.read_bytes()[:3000], 24000, [(1000, 1500), (20000, 20001)])
    known = ask(programs(variant), [calls.replace(recording, name="push")])[0].known
    stream = calls.replace(recording, data=recording.data[:30], bits=237, known=known, gaps=[(1000, 1500)])
    asked = [calls.replace(recording, name=name) for name in ("totals", "items", "push")]
    asked += [calls.replace(recording, name="run", end=24000, known=bytes(40))]
    asked += [calls.replace(stream, name=name) for name in ("finish", "finish_with", "check")]
    asked += [Call("correct", begin=0x1234567, end=6, bits=5)]
    tried = 0
    for call in asked:
        each = [calls.replace(call, allowed=k, refuses_on=on) for k in range(60) for on in (False, True)]
        given = ask(programs(variant), [call, *each])
        right, *answers = (answer._replace(most=0, stack=0) for answer in given)
        for one, answer in zip(each, answers):
            none = calls.refused(one, "OUT_OF_MEMORY")._replace(refused=answer.refused)
            assert answer in (right._replace(refused=answer.refused), none), one
        refused = [answer.refused > 0 for answer in answers]
        assert right.refusal == 0 and any(refused) and not any(refused[-2:]), call.name
        tried += sum(refused)
    cases(tried)


def test_memory_of_a_megabyte(programs: Programs, cases: Cases) -> None:
    """A recording is copied, and takes up to 1.2 bytes per byte; a stream takes less than a megabyte if there is little room."""
    cases(3)
    data = (42 * SAMPLE.read_bytes())[: 1 << 20]
    asked = [Call(name, data, 8 * len(data), room=0) for name in ("totals", "items")]
    asked.append(Call("push", data, known=bytes(256), room=16))
    totals, items, push = (answer.most for answer in ask(programs("archive"), asked))
    assert len(data) <= totals <= 1.2 * len(data) and len(data) <= items <= 1.2 * len(data)
    assert 0 < push < 10**6


# ---- random recordings, by the program and by each language


def recording(seed: int) -> Call:
    """A part of the sample, damaged, shortened, or noise, by any rules."""
    r, sample = random.Random(seed), SAMPLE.read_bytes()
    if r.random() < 0.05:
        # more items than there is room for, so that a chunk is taken in parts
        dense = worst_inputs.ring_of(worst_inputs.short_locks) * r.randrange(1, 40)
        return Call("items", dense, 8 * len(dense) - r.randrange(9), rules=plain.Rules(0, 8, 1))
    start = r.randrange(len(sample))
    data = bytearray(sample[start : start + r.choice([0, 1, 30, 500, 3000])])
    data = bytearray(r.randbytes(len(data))) if r.random() < 0.1 else data
    for _ in range(int(len(data) * r.choice([0, 0.01, 0.1, 0.3]))):
        data[r.randrange(len(data))] ^= 1 << r.randrange(8)
    bits = max(0, 8 * len(data) - r.choice([0, 0, 3, 8, 100]))
    places = sorted(r.sample(range(bits), 2 * r.randrange(0, 4))) if bits > 10 and r.random() < 0.4 else []
    of = r.choice([0, 0, r.randrange(1, 65)])
    rules = plain.Rules(r.randrange(6), r.randrange(1, 9), r.randrange(1, (of or 64) + 1), of)
    return Call("items", bytes(data), bits, [*zip(places[::2], places[1::2])], rules)


def words_of(call: Call) -> list[object]:
    """The words of the program for a recording."""
    burst, reach, bad, of = call.rules
    words = ["--bits", call.bits, "--burst", burst, "--reach", reach]
    words += ["--share", bad, "--of", of] if of else ["--loss", bad]
    return words + (["--gaps", ",".join(f"{begin}-{end}" for begin, end in call.gaps)] if call.gaps else [])


def listing(items: list[plain.Item], totals: dict[str, int]) -> str:
    return plain.csv_text(item.fields() for item in items) + plain.text_of_totals(totals)


def streamed(module: ModuleType, call: Call, seed: int) -> tuple[list[object], object, bool]:
    """Items and totals of a stream in chunks, each from what was told of the stream as bytes; and whether it is told as one at once."""
    r, rules = random.Random(seed), module.Rules(*call.rules)
    items: list[object] = []
    stream, rest = bytes(256), call.data[: call.bits // 8]
    while stream == bytes(256) or rest:
        size = r.randrange(1001)
        follower = module.Follower(rules, call.gaps, stream)
        items += follower.push(rest[:size])
        stream, rest = follower.stream, rest[size:]
    follower, at_once = module.Follower(rules, call.gaps, stream), module.Follower(rules, call.gaps)
    at_once.push(call.data[: call.bits // 8])
    last, totals = follower.finish_with(call.data[call.bits // 8 :], call.bits % 8)
    group, ended = follower.finish()
    assert call.bits % 8 or ([group] * (group is not None), ended) == (last, totals)
    return items + last, totals, at_once.stream == stream


# Each burst and reach come together some twenty times.
RECORDINGS = 1000


@pytest.fixture(scope="session")
def recordings() -> list[Call]:
    return [*map(recording, range(RECORDINGS))]


@pytest.fixture(scope="session")
def listed(rds: str, recordings: list[Call]) -> list[str]:
    """What the program lists."""
    return [wrote(rds, "list", *words_of(call), data=call.data).decode() for call in recordings]


def test_recordings_in_c(programs: Programs, recordings: list[Call], listed: list[str], cases: Cases) -> None:
    cases(len(recordings))
    both = recordings + [calls.replace(call, name="totals") for call in recordings]
    answers = ask(programs("0.2"), both)
    kinds = set()
    for number, (wanted, items, totals) in enumerate(zip(listed, answers, answers[len(recordings) :])):
        numbers = dict(zip(plain.TOTALS, calls.TOTALS.unpack(totals.found)))
        assert listing([*table.items_of(items.room)], numbers) == wanted, number
        kinds |= {row[0] for row in csv.reader(io.StringIO(wanted))}
    assert kinds == {"acquired", "group", "lost", "total"}


def test_recordings_in_python(module: ModuleType, recordings: Any, listed: Any, cases: Cases) -> None:
    cases(2 * len(recordings))
    for seed, (call, wanted) in enumerate(zip(recordings, listed)):
        asked = call.data, call.bits, call.gaps, module.Rules(*call.rules)
        items, totals = [*module.items(*asked)], module.totals(*asked)
        numbers = dict(zip(plain.TOTALS, map(int, table.python_totals(totals).split())))
        assert listing([table.python_item(module, it) for it in items], numbers) == wanted, seed
        assert streamed(module, call, seed) == (items, totals, True), seed


# RDS_PUSH_SCRATCH of as many bytes and items as count.
MOST_SCRATCH = 11136 + 860160


def test_eight_threads_at_once(module: ModuleType) -> None:
    """Each decodes a damaged copy of the sample, again and again, and finds what one finds, with a scratch of its own too.

    All end one stream, which is only read.
    """
    ffi, library, whole = module._ffi, module._library, ctypes.c_uint64
    shared = module.Follower()
    shared.push(SAMPLE.read_bytes()[:8000])
    stream, rules = ffi.RdsStream.from_buffer_copy(shared.stream), ffi.RdsRules(*plain.Rules())

    def ended() -> bytes:
        found, room, count = ffi.RdsTotals(), ffi.RdsItem(), whole()
        end = [ctypes.byref(one) for one in (rules, stream, room)]
        assert library.rds_check(None, 0, *end[:2]) == 0
        assert library.rds_finish(None, 0, *end, 1, ctypes.byref(count), ctypes.byref(found)) == 0
        return bytes(found)

    def pushed_with(data: bytes) -> bytes:
        stream, room, taken, count = ffi.RdsStream(), (ffi.RdsItem * 16384)(), whole(), whole()
        scratch = ctypes.create_string_buffer(MOST_SCRATCH)
        state = [ctypes.byref(one) for one in (rules, stream)]
        told = [room, whole(len(room)), *map(ctypes.byref, (taken, count)), scratch, whole(MOST_SCRATCH)]
        assert library.rds_push_with(data, whole(len(data)), None, whole(0), *state, *told) == 0
        return bytes(stream)

    def decoded(number: int) -> tuple[object, object]:
        assert ended() == whole_end
        data = damaged[number]
        follower = module.Follower()
        rows = [follower.push_array(part) for part in (data[: len(data) // 2], data[len(data) // 2 :])]
        last, totals = follower.finish_array()
        assert totals == module.totals(data) and pushed_with(data) == follower.stream
        return [row for part in [*rows, last] for row in part.tolist()], module.items_array(data).tolist()

    whole_end = ended()
    damaged = []
    for number in range(8):
        r, data = random.Random(number), bytearray(SAMPLE.read_bytes())
        for _ in range(len(data) // 10):
            data[r.randrange(len(data))] ^= 1 << number
        damaged.append(bytes(data))
    alone = [*map(decoded, range(8))]
    assert all(rows == at_once for rows, at_once in alone)
    with ThreadPoolExecutor(8) as pool:
        assert [*pool.map(decoded, [*range(8)] * 5)] == alone * 5


# ---- texts, memory and stack


def test_texts(librds: str) -> None:
    """The names are those that the proved rds_refusal_name writes."""
    library = ctypes.CDLL(f"{librds}/librds.so.0")
    for name in ("refusal_text", "refusal_reason", "offset_text"):
        getattr(library, f"rds_{name}").restype = ctypes.c_char_p
    room, names = (ctypes.c_uint8 * 16)(), {}
    assert (library.rds_refusal_text(0), library.rds_refusal_reason(0)) == (b"Success", b"no error")
    for number in range(1, 256):
        is_known = library.rds_refusal_name(number, room, 16) == 0
        names[number] = bytes(room).split(b"\0")[0].decode() if is_known else "unknown"
        assert (library.rds_refusal_reason(number) == b"unknown") != is_known
        assert library.rds_refusal_text(number).decode() == names[number]
    assert {number: name for number, name in names.items() if name != "unknown"} == ERRORS
    assert len(ERRORS) == 20
    offsets = [library.rds_offset_text(number).decode() for number in range(8)]
    assert offsets == ["unknown", "A", "B", "C", "Cx", "D", "C or Cx", "unknown"]


class Told(ctypes.Structure):
    """The answer of lib/heap.c."""

    _fields_ = [("ok", ctypes.c_uint64), ("at", ctypes.c_uint64)]


class Heap:
    """lib/heap.c, compiled between two texts."""

    def __init__(self, path: Path, before: str, after: str) -> None:
        text = f'{before}\n#include "{TOP}/lib/heap.c"\n{after}\n'
        wrote(CC, "-shared", "-fPIC", "-o", path, "-x", "c", "-", data=text.encode())
        self.library, self.memory = ctypes.CDLL(str(path)), ctypes.create_string_buffer(4100)
        self.library.rattle_alloc.restype = self.library.rattle_realloc.restype = Told
        self.begin = ctypes.addressof(self.memory) + 8

    def told(self, name: str, *numbers: int) -> Any:
        return getattr(self.library, name)(*map(ctypes.c_uint64, numbers))

    def call(self, name: str, *numbers: int) -> int:
        """The address that a call answers, or 0."""
        told = self.told(name, *numbers)
        return told.at if isinstance(told, Told) and told.ok else 0


NOTING = """#include <stdint.h>
#include <stdlib.h>
void *(*noted)(void *, size_t);
#define malloc(size) noted(NULL, size)
#define realloc(at, size) noted(at, size)
#define free(at) noted(at, 0)"""


def test_sizes_and_places_of_heap_c(folder: Path) -> None:
    """lib/heap.c over a malloc, realloc and free that note their arguments: each is handed on unchanged."""
    heap, asked = Heap(folder / "heap.so", NOTING, ""), []
    at, whole = heap.begin, ctypes.c_uint64

    def answered(*given: int) -> int | None:
        asked.append(given)
        return memory

    note = ctypes.CFUNCTYPE(ctypes.c_void_p, whole, whole)(answered)
    ctypes.c_void_p.in_dll(heap.library, "noted").value = ctypes.cast(note, ctypes.c_void_p).value
    sizes = (0, 1, 8, 4096, 2**31, 2**32 + 1, 2**40, 2**63 - 1)
    for memory, size in itertools.product((at, None), sizes):
        answers = [heap.told("rattle_alloc", size, 8)]
        answers += [heap.told("rattle_realloc", at + 8, old, size, 8) for old in (3, 2**63 - 1)]
        heap.call("rattle_dealloc", at + 1, size, 8)
        assert asked == [(0, size or 8), (at + 8, size or 8), (at + 8, size or 8), (at + 1, 0)]
        assert all(one.ok == bool(memory) and one.at and (one.at == at) == one.ok for one in answers)
        asked.clear()


LEND = "void lend(uintptr_t at) { heap_scratch = (struct scratch){true, at, at + 4000}; }"


def test_blocks_of_a_scratch(folder: Path, cases: Cases) -> None:
    """Random ones are aligned, inside the scratch, apart, and keep their bytes if they are moved."""
    heap, r, turns, refused, moved = Heap(folder / "lent.so", "", LEND), random.Random(1), 20000, 0, 0
    blocks: dict[int, tuple[int, bytes]] = {}
    for _ in range(turns):
        if not blocks:
            heap.call("lend", heap.begin)
        at = r.choice([*blocks, 0])
        alignment, held = blocks.pop(at, (1 << r.randrange(5), b""))
        if at and r.random() < 0.6:
            heap.call("rattle_dealloc", at, len(held), alignment)
            continue
        size, name = r.randrange(1, 300), "rattle_realloc" if at else "rattle_alloc"
        found = heap.call(name, *([at, len(held)] if at else []), size, alignment)
        if found:
            assert found % alignment == 0 and heap.begin <= found and found + size <= heap.begin + 4000
            assert all(it + len(old) <= found or found + size <= it for it, (_, old) in blocks.items())
            assert ctypes.string_at(found, min(size, len(held))) == held[:size]
            moved += bool(at) and found != at
            held = r.randbytes(size)
            ctypes.memmove(found, held, size)
        refused += not found
        if found or at:
            blocks[found or at] = alignment, held
        assert all(ctypes.string_at(it, len(old)) == old for it, (_, old) in blocks.items())
    assert refused > 100 and moved > 100
    cases(turns)


# ---- pointers


@pytest.fixture(scope="session")
def alone(folder: Path) -> border.Alone:
    (folder / "border").mkdir()
    return border.Alone(folder / "border")


def test_every_pointer_of_every_function(librds: str, module: ModuleType, alone: border.Alone) -> None:
    sanitized = alone(border.BORDER, "-fsanitize=undefined", "-fno-sanitize-recover=all")
    assert border.faults_of(sanitized, module._ffi, True) == {}
    assert border.faults_of(ctypes.CDLL(f"{librds}/librds.so.0"), module._ffi, False) == {}


def test_mistakes_in_border_c(module: ModuleType, alone: border.Alone, cases: Cases) -> None:
    tried = 0
    for text, copy, functions in border.mistaken():
        found = border.faults_of(alone(copy), module._ffi, True)
        assert found and functions <= {*found}, f"{text}: {functions - {*found}}"
        tried += max(1, len(functions))
    assert tried >= 150
    cases(tried)


# ---- Rust

COUNTS = "7691 valid, 1923 groups"


class Cargo:
    """cargo over bindings/rust, in a folder of its own."""

    manifest = f"{TOP}/bindings/rust/Cargo.toml"

    def __init__(self, librds: str, folder: Path) -> None:
        self.target = folder / "cargo"
        folders = {"RDS_LIB_DIR": librds, "CARGO_TARGET_DIR": str(self.target)}
        quick = {"CARGO_INCREMENTAL": "0", "CARGO_PROFILE_DEV_DEBUG": "0"}
        self.variables = {**os.environ, **folders, **quick}

    def run(self, *words: object, cwd: Path = TOP, data: bytes = b"", **variables: Any) -> Ran:
        given: dict[str, str | None] = {**self.variables, "PWD": str(cwd), **variables}
        env = {name: value for name, value in given.items() if value is not None}
        return run("cargo", words[0], "--offline", *words[1:], cwd=cwd, env=env, data=data, timeout=600)


@pytest.fixture(scope="session")
def cargo(librds: str, folder: Path) -> Cargo:
    """After the crate's tests and examples were built, by a relative folder of the library."""
    needs("cargo")
    made, path = Cargo(librds, folder), Path(librds)
    words = ["test", "--quiet", "--manifest-path", made.manifest]
    ended = made.run(*words, cwd=path.parent, RDS_LIB_DIR=path.name)
    assert ended.status == 0, (ended.out + ended.err).decode()[-3000:]
    return made


def test_table_in_rust(cargo: Cargo, cases: Cases) -> None:
    wanted = "".join(f"{text} = {answer}\n" for text, answer in TABLE.items() if not text.startswith("name "))
    cases(wanted.count("\n"))
    assert wrote(cargo.target / "debug/examples/cases", data=wanted.encode()).decode() == wanted


def test_recordings_in_rust(cargo: Cargo, recordings: list[Call], cases: Cases, programs: Programs) -> None:
    cases(len(recordings))
    lines = []
    for call, answer in zip(recordings, ask(programs("0.2"), recordings)):
        gaps = ",".join(f"{begin}-{end}" for begin, end in call.gaps)
        numbers = " ".join(map(str, [call.bits, *call.rules]))
        items = table.items_text([*table.items_of(answer.room)])
        lines.append(f"items {call.data.hex() or '-'} {numbers} {gaps or '-'} = {items}")
    given = "\n".join(lines).encode()
    assert wrote(cargo.target / "debug/examples/cases", data=given).decode().splitlines() == lines


def test_documentation_without_the_library(cargo: Cargo) -> None:
    words = ["doc", "--quiet", "--no-deps", "--manifest-path", cargo.manifest]
    assert cargo.run(*words, RDS_LIB_DIR=None, PKG_CONFIG_LIBDIR="/").status == 0


def test_a_folder_without_the_library(cargo: Cargo, tmp_path: Path) -> None:
    ended = cargo.run("build", "--manifest-path", cargo.manifest, RDS_LIB_DIR=str(tmp_path))
    assert f"{tmp_path}/librds.a is not there: `make lib` builds it" in ended.err.decode()


def test_programs_of_the_readme_in_rust(cargo: Cargo, installed: Path, tmp_path: Path, cases: Cases) -> None:
    """By the folder of the archive, and by pkg-config."""
    cases(2)
    (tmp_path / "src").mkdir()
    (tmp_path / "src/main.rs").write_text(first_program("rust"))
    package = f'name = "readme"\nversion = "0.1.0"\nedition = "2021"\n[dependencies]\nrds = {{ path = "{TOP}/bindings/rust" }}'
    (tmp_path / "Cargo.toml").write_text(f"[package]\n{package}\n")
    words = ["run", "--quiet", "--manifest-path", tmp_path / "Cargo.toml"]
    ways: list[dict[str, Any]] = [{}, {"RDS_LIB_DIR": None, **pkg_config(installed)}]
    for variables in ways:
        ended = cargo.run(*words, data=SAMPLE.read_bytes(), **variables)
        assert ended.out.decode() == f"{COUNTS}\n", ended.err.decode()


# ---- the library as it is installed, and programs shown to users


def install(librds: str, root: Path, prefix: str) -> Path:
    names = [f"LIBRARY={librds}", f"DESTDIR={root}", f"PREFIX={prefix}"]
    wrote("make", "-s", "-o", f"{librds}/librds.so.0", "install-lib", *names, cwd=TOP)
    return root


@pytest.fixture(scope="session")
def installed(librds: str, folder: Path) -> Path:
    needs("make", "pkg-config")
    return install(librds, folder / "root", "/usr")


def pkg_config(root: Path) -> dict[str, str]:
    """The variables by which a program is made and run with the installed library."""
    kept = {"PKG_CONFIG_ALLOW_SYSTEM_CFLAGS": "1", "PKG_CONFIG_ALLOW_SYSTEM_LIBS": "1"}
    names = {"PKG_CONFIG_SYSROOT_DIR": str(root), "PKG_CONFIG_PATH": f"{root}/usr/lib/pkgconfig"}
    return {**kept, **names, "LD_LIBRARY_PATH": f"{root}/usr/lib"}


MODES = """-rw-r--r-- usr/include/rds.h
-rw-r--r-- usr/lib/cmake/rds/rds-config-version.cmake
-rw-r--r-- usr/lib/cmake/rds/rds-config.cmake
-rw-r--r-- usr/lib/librds.a
-rw-r--r-- usr/lib/pkgconfig/rds.pc
-rwxr-xr-x usr/lib/librds.so.0
lrwxrwxrwx usr/lib/librds.so"""


def test_installed_files(installed: Path) -> None:
    words = ["!", "-type", "d", "!", "-path", "*/man3/*", "-printf", "%M %P\n"]
    assert sorted(said("find", installed, *words).splitlines()) == MODES.split("\n")
    assert sorted(path.name.removesuffix(".3") for path in installed.glob("usr/share/man/man3/*")) == DECLARED


def test_installing_below_another_folder(librds: str, tmp_path: Path, cases: Cases) -> None:
    """Twice: the second one replaces the first."""
    cases(2)
    needs("pkg-config")
    for _ in range(2):
        root = install(librds, tmp_path, "/opt/rds") / "opt/rds/lib"
    assert not any("/opt" in path.read_text() for path in (root / "cmake/rds").iterdir())
    variables = {**os.environ, "PKG_CONFIG_SYSROOT_DIR": "", "PKG_CONFIG_PATH": f"{root}/pkgconfig"}
    found = said("pkg-config", "--cflags", "--libs", "rds", env=variables)
    assert found.split() == ["-I/opt/rds/include", "-L/opt/rds/lib", "-lrds"]


def test_program_of_the_header(librds: str, folder: Path) -> None:
    text = "\n".join(re.findall(r"^ \*     (.*)$", HEADER, re.M))
    words = [CC, "-std=c11", *STRICT, f"-I{librds}", "-o", folder / "header", "-x", "c", "-", "-x", "none"]
    wrote(*words, f"{librds}/librds.a", data=text.encode())
    assert said(folder / "header", data=SAMPLE.read_bytes()) == COUNTS


class Shown:
    """The programs of bindings/c, made by pkg-config."""

    def __init__(self, installed: Path, folder: Path) -> None:
        self.folder, self.variables = folder, {**os.environ, **pkg_config(installed)}
        self.found = said("pkg-config", "--cflags", "--libs", "rds", env=self.variables).split()
        source = (TOP / "bindings/c/programmes.c").read_text()
        # with room for two items a chunk is taken in parts
        (folder / "in_parts.c").write_text(source.replace("ROOM = 16 * CHUNK", "ROOM = 2"))
        self.make("totals", TOP / "bindings/c/totals.c", "-Wall", "-Wextra", "-Wpedantic", "-Werror")
        self.make("programmes", TOP / "bindings/c/programmes.c", "-Wall", "-Wextra", "-Wpedantic", "-Werror")
        self.make("in_parts", folder / "in_parts.c", "-fsanitize=address")

    def make(self, name: str, source: Path, *options: str) -> None:
        wrote(CC, "-std=c11", *options, "-o", self.folder / name, source, *self.found)

    def run(self, name: str, *words: object, data: bytes = b"", **variables: str) -> Ran:
        return run(self.folder / name, *words, data=data, env={**self.variables, **variables})


@pytest.fixture(scope="session")
def shown(installed: Path, folder: Path) -> Shown:
    return Shown(installed, folder)


def test_totals_of_files(rds: str, shown: Shown, tmp_path: Path, cases: Cases) -> None:
    """Of the sample, of a longer one than the first room holds, and of no file and of two."""
    cases(4)
    nine = tmp_path / "nine"
    nine.write_bytes(9 * SAMPLE.read_bytes())
    for path in (SAMPLE, nine):
        rows = [row.split(",") for row in said(rds, "totals", data=path.read_bytes()).splitlines()]
        numbers = {row[1]: row[2] for row in rows}
        wanted = f"{numbers['groups']} groups, {numbers['complete']} of them complete; {numbers['bits']} bits corrected"
        assert shown.run("totals", path).out.decode() == f"{wanted}\n"
    for count in (0, 2):
        assert shown.run("totals", *[SAMPLE] * count) == (2, b"", b"usage: totals FILE\n")


def test_programmes_of_streams(rds: str, shown: Shown, cases: Cases) -> None:
    cases(4)
    twice = SAMPLE.read_bytes() + bytes(9999) + SAMPLE.read_bytes()
    rows = [re.split("[,:~]", row) for row in said(rds, "list", data=twice).splitlines()]
    named = [row[5] for row in rows if row[0] == "group" and row[4] == "A"]
    wanted = [it for before, it in zip([""] + named, named) if it != before]
    assert shown.run("programmes", data=twice).out.decode().split() == wanted
    # programmes change, one in a damaged block and one in a group that is cut off
    lines = "".join(f"{it} 0548 E100 5041\n" for it in "1234 1234 1234 0678 1234 9ABC".split())
    three = bytearray(wrote(rds, "encode", data=lines.encode())[:75])
    three[40] = 0x60
    for name in ("programmes", "in_parts"):
        assert shown.run(name, data=bytes(three)).out.decode().split() == ["1234", "0678", "1234", "9ABC"]
    zeros = wrote(rds, "encode", data=b"0000 0548 E100 5041\n" * 2)
    assert shown.run("programmes", data=zeros).out == b"0000\n"


def test_a_programme_as_soon_as_it_is_known(rds: str, shown: Shown) -> None:
    sent, pipe = wrote(rds, "encode", data=b"1234 0548 E100 5041\n" * 5), subprocess.PIPE
    program = shown.folder / "programmes"
    with subprocess.Popen(program, env=shown.variables, stdin=pipe, stdout=pipe) as child:
        assert child.stdin and child.stdout
        child.stdin.write(sent)
        child.stdin.flush()
        assert select.select([child.stdout], [], [], LIMIT)[0] and child.stdout.readline() == b"1234\n"
        child.stdin.close()


@pytest.mark.parametrize("name", ["programmes", "totals"])
def test_refused_call_of_a_program(shown: Shown, earlier: Path, name: str) -> None:
    words = [SAMPLE] if name == "totals" else []
    ended = shown.run(name, *words, data=SAMPLE.read_bytes(), LD_LIBRARY_PATH=f"{earlier}/refusing")
    assert (ended.status, ended.err) == (1, b"refused 5 rds_refusal_text: rds_refusal_reason\n")


# ---- how the library is made


ARCHS = [("amd64", "build/lib", ""), ("arm64", "build/lib-arm64", " aarch64-linux-gnu-")]


@pytest.mark.parametrize("arch, folder_of, tools", ARCHS)
def test_make_lib(arch: str, folder_of: str, tools: str) -> None:
    """After a change of the header the library is made anew, for either processor."""
    words = ["make", "--no-print-directory", "-n", "-W", "lib/rds.h", "lib", f"ARCH={arch}", "RT=true"]
    lines = said(*words, cwd=TOP, env={**os.environ, "MAKEFLAGS": ""}).splitlines()
    archive = f"build/librds-{arch}.a"
    wanted = [f"lib/archive.py {arch} {archive}", f"lib/make_library.sh {archive} {folder_of}{tools}"]
    assert [line.rstrip() for line in lines if line.startswith("lib")] == wanted
