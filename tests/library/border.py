"""Each pointer of each function of lib/rds.h, in each bad and each good place.

lib/border.c is tried over proved functions that only note their arguments: a bad pointer is refused before one is called, and a good call
reaches it unchanged. The library refuses the same pointers, and writes nothing then. Copies of lib/border.c with mistakes show that each is seen.
"""

from __future__ import annotations

import ctypes
import itertools
import os
import re
from pathlib import Path
from typing import Any, Iterator, NamedTuple

from running import TOP, wrote

LIB = TOP / "lib"
CC = os.environ.get("CC", "cc")
BORDER = (LIB / "border.c").read_text()
HEADER = re.sub(r"/\*.*?\*/", "", (LIB / "rds.h").read_text(), flags=re.S)
ROWS = re.findall(r"^\w+ (rds_\w+)\(([^)]*)\);", HEADER, re.M)
DECLARED = {name: " ".join(text.split()) for name, text in ROWS}
REACHED, BAD_POINTER, SMALL_ROOM = 200, 70, 64
# A row has three values, and each pointer 1024 bytes of its own.
COUNT, APART, MOST = 3, 1024, 30
PTRDIFF_MAX, SIZE_MAX = 2**63 - 1, 2**64 - 1
MEMORY = ctypes.create_string_buffer(b"\x5a" * (APART * MOST))
BEGIN = -(-ctypes.addressof(MEMORY) // 64) * 64
AS_IT_WAS = MEMORY.raw
# Arguments by name; a pointer is an address.
Call = dict[str, int]


class Parameter(NamedTuple):
    """A parameter, with the size and the alignment of its type or of what it points to."""

    name: str
    size: int
    alignment: int
    is_pointer: bool
    is_written: bool
    is_row: bool


def layout(kind: str, ffi: Any) -> tuple[int, int]:
    if kind.startswith("rds_"):
        struct = getattr(ffi, "".join(map(str.capitalize, kind.removesuffix("_t").split("_"))))
        return ctypes.sizeof(struct), ctypes.alignment(struct)
    size = 8 if kind == "size_t" else int(kind.strip("uint_")) // 8
    return size, size


class Function:
    """A function of the header, in a library."""

    def __init__(self, library: ctypes.CDLL, name: str, ffi: Any, is_alone: bool) -> None:
        self.library, self.name, self.is_alone, text = library, name, is_alone, DECLARED[name]
        self.parameters = [
            Parameter(name, *layout(kind, ffi), bool(star), not const, f"{name}_len" in text)
            for const, kind, star, name in re.findall(r"(const )?(\w+) (\*?)(\w+)", text)
        ]
        self.pointers = [one for one in self.parameters if one.is_pointer]
        kinds = {1: ctypes.c_uint8, 2: ctypes.c_uint16, 4: ctypes.c_uint32, 8: ctypes.c_uint64}
        self.function = getattr(library, name)
        sizes = [ctypes.c_void_p if one.is_pointer else kinds[one.size] for one in self.parameters]
        self.function.argtypes = sizes
        self.function.restype = ctypes.c_uint8

    def apart(self, last: str = "", numbers: int = 0x8000000080000080) -> Call:
        """All pointers apart, in rising order but for one, which comes last. Numbers have a bit that is lost if they are cut."""
        call: Call = {}
        for place, one in enumerate(self.parameters, 1):
            call[one.name] = numbers & (1 << 8 * one.size) - 1
            if one.is_pointer:
                call[one.name] = BEGIN + APART * (MOST - 3 if one.name == last else place)
            elif one.name.endswith("_len"):
                call[one.name] = COUNT
        return call

    def is_right(self, call: Call, is_bad: bool) -> bool:
        """Whether a bad call is refused and writes nothing, and a good one is taken: alone it reaches the proved function unchanged."""
        reached = ctypes.c_int.in_dll(self.library, "reached") if self.is_alone else ctypes.c_int()
        reached.value = 0
        answer, is_left = self.function(*call.values()), MEMORY.raw == AS_IT_WAS
        ctypes.memmove(MEMORY, AS_IT_WAS, len(AS_IT_WAS))
        if is_bad or not self.is_alone:
            return (answer == BAD_POINTER) == is_bad and (is_left or not is_bad) and not reached.value
        # the scratch of a call is for lib/heap.c
        parameters = [one for one in self.parameters if "scratch" not in one.name]
        is_reached = answer == REACHED and reached.value == 1 and is_left
        return is_reached and all(self.is_handed_on(one, call) for one in parameters)

    def is_handed_on(self, one: Parameter, call: Call) -> bool:
        seen = ctypes.c_uint64.in_dll(self.library, f"seen_{one.name}").value
        if one.is_row and not call[f"{one.name}_len"]:
            return seen != 0 and seen % one.alignment == 0
        return seen == call[one.name]

    def faults(self) -> list[str]:
        """The first fault, if there is one."""
        wrong = (text for text, call, is_bad in self.calls() if not self.is_right(call, is_bad))
        return [f"{self.name}: {text}" for text in itertools.islice(wrong, 1)]

    def calls(self) -> Iterator[tuple[str, Call, bool]]:
        """A text, a call, and whether it has to be refused."""
        for numbers in (0x8000000080000080, 0, SIZE_MAX):
            yield "all good", self.apart(numbers=numbers), False
        for one in self.pointers:
            call = self.apart(one.name)
            for by in range(1, one.alignment):
                yield f"{one.name} not aligned", {**call, one.name: call[one.name] + by}, True
            yield f"{one.name} NULL", {**call, one.name: 0}, True
            if one.is_row:
                yield from self.empty(one, {**call, f"{one.name}_len": 0})
                yield from self.too_many(one, call)
            for other in self.pointers:
                if other != one:
                    yield from self.over(one, other, call)

    def empty(self, one: Parameter, call: Call) -> Iterator[tuple[str, Call, bool]]:
        """Without values any pointer will do."""
        inside = [self.apart(one.name)[other.name] + 1 for other in self.pointers]
        for at in (call[one.name], call[one.name] + 1, 0, *inside):
            yield f"{one.name} without values", {**call, one.name: at}, False

    def too_many(self, one: Parameter, call: Call) -> Iterator[tuple[str, Call, bool]]:
        """More values than memory can hold, and past its end."""
        most, name = PTRDIFF_MAX // one.size, f"{one.name}_len"
        yield f"{one.name} with a value too many", {**call, name: most + 1}, True
        if one.size > 1:
            yield f"{one.name} of a size that wraps", {**call, name: SIZE_MAX // one.size + 2}, True
        end = SIZE_MAX - COUNT * one.size + 1
        end -= end % one.alignment
        yield f"{one.name} past the end of memory", {**call, one.name: end}, True
        if self.is_alone:
            yield f"{one.name} at the end of memory", {**call, one.name: end - one.alignment}, False
            yield f"{one.name} of as many values as memory can hold", {**call, name: most}, False

    def over(self, one: Parameter, other: Parameter, call: Call) -> Iterator[tuple[str, Call, bool]]:
        """One at the place of another: over its first and its last byte, just before and just after."""

        def down(at: int) -> int:
            return at - at % one.alignment

        length = one.size * call.get(f"{one.name}_len", 1)
        begin = call[other.name]
        end = begin + other.size * call.get(f"{other.name}_len", 1)
        before, is_bad = down(begin - length), one.is_written or other.is_written
        places = [(begin, is_bad), (down(end - 1), is_bad), (before, False)]
        places += [(down(end + one.alignment - 1), False)]
        places += [(before + one.alignment, is_bad)] * (before + one.alignment + length > begin)
        for at, is_over in places:
            yield f"{one.name} at {at - begin} of {other.name}", {**call, one.name: at}, is_over


def faults_of(library: ctypes.CDLL, ffi: Any, is_alone: bool) -> dict[str, list[str]]:
    """The faults of each function that has some."""
    functions = [Function(library, name, ffi, is_alone) for name, text in DECLARED.items() if "*" in text]
    found = {one.name: one.faults() for one in functions}
    # a NULL that is not refused is written to there
    if not any(found.values()):
        found["rds_refusal_name"] = [*name_faults(library)]
    return {name: faults for name, faults in found.items() if faults}


OF_BORDER = {70: b"BadPointer", 72: b"NotAStream", 73: b"OtherVersion", 74: b"OtherRules"}


def name_faults(library: ctypes.CDLL) -> Iterator[str]:
    """Names that only lib/border.c has: a room that is too small by a byte, one that is just enough, and none."""
    for number, name in OF_BORDER.items():
        for length, wanted in ((len(name), SMALL_ROOM), (len(name) + 1, 0)):
            room = ctypes.create_string_buffer(b"x" * 16)
            answer = library.rds_refusal_name(number, ctypes.addressof(room), length)
            text = b"x" * 16 if wanted else name + b"\0" + b"x" * (15 - len(name))
            if answer != wanted or room.raw[:16] != text:
                yield f"rds_refusal_name: {answer} and {room.raw[:16]!r} of {number} in {length} bytes"
        if library.rds_refusal_name(number, None, 16) != BAD_POINTER:
            yield f"rds_refusal_name: NULL for the name of {number}"


# ---- lib/border.c alone


def stubs() -> str:
    """Proved functions that note their arguments."""
    names = {text: re.findall(r"(\w+)(?:,|$)", text.removesuffix("void")) for text in DECLARED.values()}
    noted = {text: "".join(f"seen_{name} = (uint64_t){name}; " for name in names[text]) for text in names}
    rows = ['#include "rds.h"', "int reached;"]
    rows += [f"uint64_t seen_{name};" for name in sorted({name for some in names.values() for name in some})]
    for function, text in DECLARED.items():
        head = f"uint8_t proved_{function}({text})"
        rows += [f"{head};", f"{head} {{ reached++; {noted[text]}return {REACHED}; }}"]
    return "\n".join([*rows, ""])


class Alone:
    """Makes libraries of texts of lib/border.c."""

    def __init__(self, folder: Path) -> None:
        self.folder, self.count = folder, 0
        (folder / "stubs.c").write_text(stubs())
        self.objects = [folder / "stubs.o", folder / "heap.o"]
        for source, made in zip((folder / "stubs.c", LIB / "heap.c"), self.objects):
            wrote(CC, "-fPIC", f"-I{LIB}", "-c", "-o", made, source)

    def __call__(self, border: str, *options: str) -> ctypes.CDLL:
        self.count += 1
        path = self.folder / f"border{self.count}.c"
        path.write_text(border)
        words = ["-std=c11", "-Wall", "-Wextra", "-Werror", "-shared", "-fPIC", f"-I{LIB}", *options]
        wrote(CC, *words, "-o", path.with_suffix(".so"), path, *self.objects)
        return ctypes.CDLL(str(path.with_suffix(".so")))


# ---- mistakes

MISTAKES = [
    ("!it->at || ", ""),
    ("it->at % it->alignment || ", ""),
    ("it->count > PTRDIFF_MAX / it->size", "it->count > SIZE_MAX / it->size"),
    ("it->count > PTRDIFF_MAX / it->size", "it->count >= PTRDIFF_MAX / it->size"),
    ("it->count * it->size > UINTPTR_MAX - it->at", "false"),
    ("it->count * it->size > UINTPTR_MAX - it->at", "it->count * it->size >= UINTPTR_MAX - it->at"),
    ("return it->count && (", "return ("),
    ("return a->count && b->count && ", "return a->count && "),
    ("return a->count && b->count && ", "return b->count && "),
    ("a->at < b->at + b->count * b->size", "a->at <= b->at + b->count * b->size"),
    ("b->at < a->at + a->count * a->size", "b->at <= a->at + a->count * a->size"),
    ("a->at < b->at + b->count * b->size && ", ""),
    (" && b->at < a->at + a->count * a->size", ""),
    ("lent[k].is_written && do_overlap", "do_overlap"),
    ("for (size_t k = 1; k < count; k++)", "for (size_t k = 2; k < count; k++)"),
    ("for (size_t j = 0; j < k; j++)", "for (size_t j = 1; j < k; j++)"),
    ("k = 0; k < count; k++)\n        if (is_nowhere", "k = 1; k < count; k++)\n        if (is_nowhere"),
    ("room_len < len", "room_len <= len"),
    ("room_len < len", "room_len + 1 < len"),
    ("memcpy(room, name, len)", "memcpy(room, name, len - 1)"),
    ('"BadPointer"', '"BadPointers"'),
    ("number == RDS_BAD_POINTER", "number == RDS_NO_REFUSAL"),
    ("number >= RDS_NOT_A_STREAM", "number > RDS_NOT_A_STREAM"),
    ("number <= RDS_OTHER_RULES", "number < RDS_OTHER_RULES"),
]
# One of a function's looks at its values, or of the rows that it hands on, as it must not be.
WRONG = {
    "left out": (r"\w+\(\w+\)(?:,\s+)?", lambda look: ""),
    "as read": (r"\w+_WRITTEN(?=\()", lambda look: look.removesuffix("_WRITTEN")),
    "as one": (r"MANY(?=\w*\()", lambda look: "ONE"),
    "as it is": (r"ROW\(\w+\)", lambda row: f"{row[4:-1]}, {row[4:-1]}_len"),
}


def with_wrong_look(kind: str, place: int) -> tuple[str, set[str]]:
    """lib/border.c with one look of each function as it must not be, and the functions that have such a look."""
    pattern, edit = WRONG[kind]
    changed = set()

    def edited(body: re.Match[str]) -> str:
        part = re.search(r"return .*;" if kind == "as it is" else r"(?<=LOOK_AT\()[^;]*(?=\))", body[0])
        found = [*re.finditer(pattern, part[0])] if part else []
        if not part or len(found) <= place or kind != "as it is" and "," not in part[0]:
            return body[0]
        changed.add(body[1])
        start, end = (part.start() + at for at in found[place].span())
        return re.sub(r",\s*(?=\);)", "", body[0][:start] + edit(found[place][0]) + body[0][end:])

    return re.sub(r"^uint8_t (rds_\w+)\([^;{]*\{.*?^\}", edited, BORDER, flags=re.M | re.S), changed


def mistaken() -> Iterator[tuple[str, str, set[str]]]:
    """A text, a copy of lib/border.c with mistakes, and the functions that have one each."""
    for old, new in MISTAKES:
        assert BORDER.count(old) == 1, old
        yield f"{old} as {new}", BORDER.replace(old, new), set()
    for kind, place in itertools.product(WRONG, range(9)):
        text, changed = with_wrong_look(kind, place)
        if changed:
            yield f"look {place} {kind}", text, changed
