"""lib/rds.h against its sources: declarations by the compiler, then errors, numbers, names and versions."""

from __future__ import annotations

import ctypes
import importlib
import os
import re
import sys
from typing import Any, Iterable

import pytest
from running import TOP, needs, said, wrote

sys.path.insert(0, f"{TOP}/bindings/python/librds")
FFI: Any = importlib.import_module("_ffi")

HEADER = (TOP / "lib/rds.h").read_text()
COMMENTS = re.findall(r"/\*(.*?)\*/", HEADER, re.S)
FUNCTION = r"^(?:RDS_MUST_USE )?\w+ (rds_\w+)\(([^;]*?)\);"


def read(path: str) -> str:
    return (TOP / path).read_text()


def code_of(text: str) -> str:
    return re.sub(r"/\*.*?\*/|//[^\n]*", "", text, flags=re.S)


def found_in(path: str, pattern: str) -> str:
    """The text that a source has there."""
    found = re.search(pattern, read(path), re.M | re.S)
    assert found, f"{path} has no {pattern}"
    return found[1]


def upper(name: str) -> str:
    return "RDS_" + re.sub(r"(?<!^)(?=[A-Z])", "_", name).upper()


CC = os.environ.get("CC", "cc")
CODE = code_of(HEADER)
NAMES = {
    name: re.findall(r"(\w+)(?:,|$)", given.removesuffix("void"))
    for name, given in re.findall(FUNCTION, CODE, re.M)
}


# ---- declarations: each struct as the text of its fields in C, each function as its declaration

Declared = tuple[dict[str, str], dict[str, str]]


def in_c(kind: str) -> str:
    """A type of Rust or Rattle as C has it."""
    name = upper(kind.split()[-1].lstrip("&"))[4:].lower()
    sized = f"{'u' * (name[0] == 'u')}int{name[1:]}_t" if name[1:].isdigit() else f"{name}_t"
    plain = "size_t" if name == "usize" else sized
    return f"{'' if 'mut' in kind else 'const '}{plain} *" if kind[0] in "*&" else plain


def parameters(text: str) -> list[tuple[str, str]]:
    """Names and types of a function: a slice is a pointer and a length, and the allocator is nothing."""
    text = re.sub(r"(\w+): &(mut )?\[(\w+)\]", r"\1: &\2\3, \1_len: usize", text)
    return [(name, kind) for name, kind in re.findall(r"(\w+): ([^,]+)", text) if kind != "Global"]


def functions_of(text: str) -> dict[str, tuple[str, str]]:
    """The result and the parameters of each function of Rust or Rattle."""
    rows = re.findall(r"fn (rds_\w+)\(([^)]*)\) -> (\w+)", code_of(text))
    return {name: (result, given) for name, given, result in rows}


def of_rust(text: str) -> Declared:
    structs = {}
    for name, body in re.findall(r"#\[repr\(C\)\]\s[^{]*struct (\w+) \{(.*?)\}", code_of(text), re.S):
        fields = re.findall(r"pub (\w+): (?:(\w+)|\[(\w+); (\d+)\])", body)
        rows = [
            f"{in_c(kind or of)} {field}{f'[{count}]' * bool(count)};" for field, kind, of, count in fields
        ]
        structs[in_c(name)] = " ".join(rows)
    functions = {}
    for name, (result, given) in functions_of(text).items():
        kinds = ", ".join(in_c(kind) for _, kind in parameters(given))
        functions[name] = f"{in_c(result)} {name}({kinds or 'void'});"
    return structs, functions


def of_ctypes(kind: Any) -> str:
    """A type of ctypes as C has it, but for `const`."""
    if issubclass(kind, ctypes._Pointer):
        return f"{of_ctypes(kind._type_)} *"
    if issubclass(kind, ctypes.Structure):
        return in_c(kind.__name__)
    sign = "" if kind is ctypes.c_int8 else "u"
    return "uint8_t *" if kind is ctypes.c_char_p else f"{sign}int{8 * ctypes.sizeof(kind)}_t"


def field_of_ctypes(name: str, kind: Any) -> str:
    row = (kind._type_, f"[{kind._length_}]") if issubclass(kind, ctypes.Array) else (kind, "")
    return f"{of_ctypes(row[0])} {name}{row[1]};"


def of_python() -> Declared:
    structs = {of_ctypes(it): " ".join(field_of_ctypes(*row) for row in it._fields_) for it in FFI.STRUCTS}
    functions = {}
    for name, (result, given) in FFI.FUNCTIONS.items():
        functions[name] = f"{of_ctypes(result)} {name}({', '.join(map(of_ctypes, given)) or 'void'});"
    return structs, functions


def of_c(text: str) -> Declared:
    structs = {
        name: body for body, name in re.findall(r"typedef struct \w+ \{(.*?)\} (\w+);", code_of(text), re.S)
    }
    return structs, {found[1]: found[0] for found in re.finditer(FUNCTION, code_of(text), re.M)}


# A unit of C that compiles only if rds.h has the same; ctypes knows no `const`.
HEAD = """#include <stddef.h>
#include <stdint.h>
#ifdef NO_CONST
#define const
#endif
#include "rds.h"
#include "rds.h"
#define SAME(type, field) _Static_assert(offsetof(type, field) == offsetof(struct their_##type, field) && \\
    __builtin_types_compatible_p(__typeof__(((type *)0)->field), __typeof__(((struct their_##type *)0)->field)), #field)
"""


def unit(declared: Declared, others: Iterable[str] = ()) -> str:
    rows = [HEAD]
    for name, body in declared[0].items():
        rows.append(f"struct their_{name} {{ {body} }};")
        rows += [f"SAME({name}, {field});" for field in re.findall(r"(\w+)(?:\[\d+\])?[,;]", body)]
        rows.append(f'_Static_assert(sizeof({name}) == sizeof(struct their_{name}), "{name}");')
    return "\n".join([*rows, *declared[1].values(), *others, ""])


def compiled(text: str, *words: object) -> None:
    options = ["-Wall", "-Wextra", "-Wpedantic", "-Wpadded", "-Werror", f"-I{TOP}/lib"]
    wrote(*words, *options, "-c", "-o", os.devnull, "-", data=text.encode())


CRATES = "".join(
    path.read_text() for crate in ("abi", "c") for path in (TOP / f"crates/rds_{crate}/src").glob("*.rt")
)
# Functions of lib/border.c alone.
OF_BORDER = {"rds_push_with", "rds_push_soft_with"}
SOURCES: dict[str, tuple[Declared, set[str]]] = {
    "crates": (of_rust(CRATES), OF_BORDER),
    "bindings/rust": (of_rust(read("bindings/rust/src/ffi.rs")), set()),
    "bindings/python": (of_python(), OF_BORDER),
}


@pytest.mark.parametrize("source", SOURCES)
def test_declarations(source: str) -> None:
    (structs, functions), left_out = SOURCES[source]
    mine = of_c(HEADER)
    assert ({*structs}, {*functions}) == ({*mine[0]}, {*mine[1]} - left_out)
    compiled(
        unit((structs, functions)), CC, "-xc", "-std=gnu11", *["-DNO_CONST"] * (source == "bindings/python")
    )


def test_header_in_cpp() -> None:
    needs("c++")
    compiled('#include "rds.h"\n#include "rds.h"\n', "c++", "-xc++", "-std=c++17")


def test_names_of_parameters() -> None:
    names = {
        name: [name for name, _ in parameters(given)] for name, (_, given) in functions_of(CRATES).items()
    }
    assert names == {name: given for name, given in NAMES.items() if name not in OF_BORDER}


def test_all_of_version_0_2_is_still_declared() -> None:
    earlier = read("tests/library/rds_0_2.h")
    numbers = [
        row
        for body in re.findall(r"enum \{(.*?)\}", earlier, re.S)
        for row in re.findall(r"(\w+) = (\w+)", body)
    ]
    others = [f'_Static_assert({name} == {number}, "{name}");' for name, number in numbers]
    others += re.findall(r"^const char \*rds_.*;$", earlier, re.M)
    declared = of_c(earlier)
    assert [*map(len, (*declared, others))] == [9, 12, 38]
    compiled(unit(declared, others), CC, "-xc", "-std=gnu11")
    macros = re.findall(r"^#define (RDS_(?:RULES|NAME_ROOM) .*)$", earlier, re.M)
    assert len(macros) == 2 and [macro for macro in macros if f"#define {macro}\n" not in HEADER] == []


# ---- sizes, errors, versions and names


def test_sizes_in_comments() -> None:
    rows = re.findall(r"/\*((?:(?!\*/).)*)\*/\s*typedef struct (\w+)", HEADER, re.S)
    sizes = [(name, size) for comment, name in rows for size in re.findall(r"(\d+) bytes", comment)]
    assert len(sizes) == 11
    checks = [f'_Static_assert(sizeof({name}) == {size}, "{name}");' for name, size in sizes]
    compiled("\n".join([HEAD, *checks]), CC, "-xc", "-std=gnu11")


def test_errors() -> None:
    """Numbers, names and reasons, by the crates and by lib/border.c."""
    text = read("crates/rds_abi/src/refusal.rt")
    said_of = {name: reason for reason, name in re.findall(r'#\[error\("(.*?)"\)\]\s*(\w+),', text)}
    mine = {
        int(number): (name, said_of[name]) for name, number in re.findall(r"Refusal::(\w+) => \((\d+),", text)
    }
    rows = re.findall(r'^    \{RDS_(\w+), "(\w+)", "(.*?)"\},$', read("lib/border.c"), re.M)
    numbers = {
        name: int(number)
        for name, number in re.findall(
            r"(RDS_\w+) = (\d+)", found_in("lib/rds.h", r"enum \{([^}]*RDS_BAD_POINTER[^}]*)")
        )
    }
    in_border = {numbers[f"RDS_{name}"]: (text, reason) for name, text, reason in rows}
    assert {number: in_border[number] for number in mine} == mine and {*in_border} - {*mine} == {
        70,
        72,
        73,
        74,
    }
    assert numbers == {upper(name): number for number, (name, _) in in_border.items()}
    assert (
        max(len(name) for name, _ in in_border.values())
        < int(found_in("lib/rds.h", r"NAME_ROOM (\d+)"))
        <= 16
    )
    rust = read("bindings/rust/src/lib.rs")
    reasons = re.findall(r'^    \((\d+), "(.*?)"\),$', rust, re.M)
    assert {int(number): reason for number, reason in reasons} == {
        number: reason for number, (_, reason) in in_border.items()
    }
    assert {
        f"RDS_{name}": int(number) for name, number in re.findall(r"pub const (\w+): u8 = (\d+);", rust)
    } == numbers


def test_usual_rules(rds: str) -> None:
    text = said(rds, "list", "--help")
    usual = [re.search(rf"--{name} .*?\[default: (\d+)\]", text, re.S) for name in ("burst", "reach", "loss")]
    rules = re.findall(r"\d+", found_in("lib/rds.h", r"^#define RDS_RULES (.*?)$"))
    assert rules == [found[1] for found in usual if found] + ["0", "0"]


# The files with a version, and how each writes it.
VERSIONS = {
    "lib/rds.pc.in": r"^Version: (.*?)$",
    "lib/rds-config.cmake.in": r"^set\(rds_VERSION (.*?)\)$",
    "lib/rds-config-version.cmake": r"^set\(PACKAGE_VERSION (.*?)\)$",
    "bindings/rust/Cargo.toml": r'^version = "(.*?)"$',
    "bindings/python/pyproject.toml": r'^version = "(.*?)"$',
}


def three_of(version: str) -> list[int]:
    """The three numbers of a version, of which the last may be left out."""
    return ([int(number) for number in version.split(".")] + [0])[:3]


def test_versions(rds: str, librds: str) -> None:
    library = ctypes.CDLL(f"{librds}/librds.so.0")
    library.rds_version_text.restype = ctypes.c_char_p
    numbers = three_of(said(rds, "--version").split()[1])
    assert [path for path, row in VERSIONS.items() if three_of(found_in(path, row)) != numbers] == []
    packed = int.from_bytes(bytes(numbers), "big")
    assert int(found_in("lib/rds.h", r"#define RDS_VERSION (0x\d+)"), 16) == library.rds_version() == packed
    assert library.rds_version_text().decode() == ".".join(map(str, numbers))
    described = found_in("lib/rds.h", r"librds: the (decoder of .*?), for C")
    assert found_in("lib/rds.pc.in", r"^Name: rds\nDescription: (.*?)$") == described


def test_symbol_versions(rds: str, librds: str) -> None:
    nodes = re.findall(r"^RDS_([\d.]+) \{\s*global:(.*?)(?:local:|\})", read("lib/rds.map"), re.M | re.S)
    shown = {name: f"RDS_{node}" for node, names in nodes for name in re.findall(r"(\w+);", names)}
    assert {*re.findall(r"^(?:const char \*|\w+ )(rds_\w+)\(", CODE, re.M)} == {*shown}
    symbols = said("nm", "-D", "--defined-only", f"{librds}/librds.so.0")
    assert dict(re.findall(r" T (\w+)@@([\w.]+)$", symbols, re.M)) == shown
    assert three_of(nodes[-1][0])[:2] == three_of(said(rds, "--version").split()[1])[:2]


def test_names_in_comments() -> None:
    comments = " ".join(COMMENTS)
    assert {*re.findall(r"\b(?:rds|RDS)_\w+", comments)} <= {*re.findall(r"\b(?:rds|RDS)_\w+", CODE)}
    assert all((TOP / path).is_file() for path in re.findall(r"\bdocs/[\w/.]*\w", comments))
    pattern = r"/\*((?:(?!\*/).)*)\*/\s*(?:RDS_MUST_USE\s+)?\w+ (rds_\w+)\("
    for comment, function in re.findall(pattern, HEADER, re.S):
        rows = re.findall(r"^ \*   (\w+(?:, \w+)*)  ", comment, re.M)
        assert {*", ".join(rows).split(", ")} <= {"", *NAMES[function]}, function
    callers = re.search(r"\bOnly ([\w\s,*]+) call malloc", comments)
    allocating = {name for name, (_, given) in functions_of(CRATES).items() if "Global" in given}
    assert callers and {*re.findall(r"rds_\w+", callers[1])} == allocating
    must_use = {*re.findall(r"^RDS_MUST_USE\nuint8_t (rds_\w+)\(", CODE, re.M)}
    assert must_use == {*NAMES} - {"rds_refusal_name", "rds_version"}
