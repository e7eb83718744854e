"""The texts of the bindings for Python and Rust: each number in them against lib/rds.h, whose own are compared with the proved code."""

from __future__ import annotations

import inspect
import os
import re
import shutil
import subprocess
import sys
from pathlib import Path
from typing import Any, Callable, Iterator, List, Tuple

import pytest

from conftest import TOP, ran

librds = pytest.importorskip("librds")

LIBRARY = Path(os.path.realpath(os.environ["RDS_LIBRARY"])).parent
HEADER = (TOP / "lib" / "rds.h").read_text(encoding="utf-8")
DECLARED = re.sub(r"/\*.*?\*/|//[^\n]*", "", HEADER, flags=re.S)
NUMBER_OF = {name: int(number) for name, number in re.findall(r"\b(RDS_\w+) = (\d+)\b", DECLARED)}


def docs_of(documented: Any) -> Iterator[str]:
    """The docstrings of a module or class and of all that it shows."""
    yield documented.__doc__ or ""
    for name, inside in vars(documented).items():
        if name in librds.__all__ or inspect.isclass(documented) and name[0] != "_":
            if inspect.isclass(inside):
                yield from docs_of(inside)
            elif inspect.isfunction(inside) or isinstance(inside, property):
                yield inside.__doc__ or ""


def of_python() -> str:
    """The docstrings on one line, without their examples. Rows of a table have two blanks after their first word."""
    lines: List[str] = []
    for text in map(inspect.cleandoc, docs_of(librds)):
        lines += [line for line in text.split("\n") if not re.match(r"    +(?!\w+  )|librds\.", line)]
    return " ".join(" ".join(lines).split())


def of_rust() -> str:
    """The documentation on one line, without its examples."""
    folder = TOP / "bindings" / "rust" / "src"
    sources = [(folder / f"{name}.rs").read_text(encoding="utf-8") for name in ("lib", "stream", "ffi")]
    lines = [line for source in sources for line in re.findall(r"^ *//[/!] ?(.*)", source, re.M)]
    return " ".join(re.sub(r"^```$.*?^```$", "", "\n".join(lines), flags=re.S | re.M).split())


# Numbers that the texts give by names of the header's.
FACTS = {
    r"Errors: (\d+), (\d+), (\d+) and (\d+) if rules .*?, (\d+) and (\d+) if .*?, (\d+) if gaps .*?, and (\d+) if": (
        "BURST_RANGE REACH_RANGE LOSS_RANGE SHARE_RANGE TOO_LONG BITS_PAST_BYTES BAD_GAPS OUT_OF_MEMORY"
    ),
    r"`version` is (\d+) for A, (\d+) for B and (\d+) if it is not known": "VERSION_A VERSION_B VERSION_UNKNOWN",
    r"`what` is (\d+) for an acquisition, (\d+) for a group and (\d+) for a loss": "ACQUIRED GROUP LOSS",
    r"`offsetN` is (\d+) to (\d+) for A, B, C, Cx and D": "A D",
    r"by other rules, are error (\d+)": "UNLAWFUL_STATE",
    r"other rules wrote them, the error is `Refused` (\d+)": "UNLAWFUL_STATE",
    r"A longer word is (?:error|`Refused`) (\d+)": "BLOCK_RANGE",
    r"a higher limit error (\d+)": "BURST_RANGE",
    r"bits it (?:is error|raises `Refused`) (\d+)": "TOO_LONG",
}
# Others that say what they are by themselves.
PLAIN = r"above 2\^64 - 1 raises|`loss` to 64|\bblock 3 of a"


@pytest.mark.parametrize("text", [of_python, of_rust])
def test_numbers_in_texts(text: Callable[[], str]) -> None:
    """All others are in lib/rds.h too, in the same range or before the same word."""
    rest = re.sub(PLAIN, "", text())
    for pattern, names in FACTS.items():
        wanted = [NUMBER_OF[f"RDS_{name}"] for name in names.split()]
        found = [int(group) for match in re.finditer(pattern, rest) for group in match.groups()]
        assert found == wanted * (len(found) // len(wanted)), pattern
        rest = re.sub(pattern, "", rest)
    header = re.sub(r"\s*\n \* ?| +", " ", HEADER)
    phrases = re.findall(r"\b\d+ to \d+\b|\b\d+\^\d+\b|\b\d+\b(?: \w+)?", rest)
    assert [phrase for phrase in phrases if phrase not in header] == []


RAISED: List[Tuple[Callable[[], object], str]] = [
    (lambda: librds.remainder(2**26), "An error of the library raises `{}`, with the number and name"),
    (lambda: librds.totals("text"), "A wrong Python object raises `{}` or"),
    (lambda: librds.encode([(1, 2, 3)]), "or `{}`, and a place or `bits` that is negative or above"),
    (lambda: librds.totals(b"", -1), "above 2^64 - 1 raises `{}`."),
    (lambda: librds.totals(b"", 2**64), "above 2^64 - 1 raises `{}`."),
    (lambda: librds.totals(b"", None, [(0, 2**64)]), "above 2^64 - 1 raises `{}`."),
]


@pytest.mark.parametrize("call, claim", RAISED)
def test_errors_in_words(call: Callable[[], object], claim: str) -> None:
    """Each error that the module's text names is raised as it says."""
    with pytest.raises(Exception) as error:
        call()
    assert claim.format(error.type.__name__) in of_python()


# ---- the programs of docs/LIBRARY.md


def program_of(language: str) -> str:
    page = (TOP / "docs" / "LIBRARY.md").read_text().split("\n## C and C++\n", 1)[1]
    (program,) = re.findall(rf"^```{language}\n(.*?)^```$", page, re.M | re.S)
    return program


def in_cpp(folder: Path) -> List[object]:
    (folder / "program.cpp").write_text(program_of("cpp"))
    words = ["c++", "-std=c++17", "-Wall", "-Wextra", "-Wpedantic", "-Werror", f"-I{TOP}/lib"]
    ran([*words, "-o", folder / "program", folder / "program.cpp", LIBRARY / "librds.a"], check=True)
    return [folder / "program"]


def in_rust(folder: Path) -> List[object]:
    (folder / "src").mkdir()
    (folder / "src/main.rs").write_text(program_of("rust"))
    package = '[package]\nname = "program"\nversion = "0.1.0"\nedition = "2021"\n[dependencies]\n'
    (folder / "Cargo.toml").write_text(f'{package}rds = {{ path = "{TOP}/bindings/rust" }}\n')
    environment = {**os.environ, "RDS_LIB_DIR": str(LIBRARY), "CARGO_TARGET_DIR": str(folder / "target")}
    ran(["cargo", "build", "--quiet", "--offline"], cwd=folder, env=environment, check=True)
    return [folder / "target/debug/program"]


def in_python(folder: Path) -> List[object]:
    (folder / "program.py").write_text(program_of("python"))
    return [sys.executable, folder / "program.py"]


@pytest.mark.parametrize("made, tool", [(in_cpp, "c++"), (in_rust, "cargo"), (in_python, sys.executable)])
def test_programs_of_the_page(made: Callable[[Path], List[object]], tool: str, tmp_path: Path) -> None:
    """Each prints the programme identifications that were sent, as they change."""
    if not shutil.which(tool):
        pytest.skip(f"there is no {tool}")
    sent = [0xD393] * 9 + [0x1234] * 9 + [0xFFFF] * 9
    bits = librds.encode([(pi, 0x0548, 0xE0CD, 0x5041) for pi in sent])
    done = subprocess.run(list(map(str, made(tmp_path))), input=bits, capture_output=True, check=True)
    assert done.stdout.decode().split() == ["D393", "1234", "FFFF"]


# ---- names


def test_names_of_errors() -> None:
    errors = {f"RDS_{name}": number for name, number in librds.Error.__members__.items()}
    enums = re.findall(r"enum \{(.*?)\};", DECLARED, re.S)
    (body,) = (body for body in enums if "RDS_TOO_LONG" in body)
    assert errors == {name: int(number) for name, number in re.findall(r"(\w+) = (\d+)", body)}


def test_names_of_parameters_in_rust() -> None:
    ffi = (TOP / "bindings" / "rust" / "src" / "ffi.rs").read_text(encoding="utf-8")
    declared = dict(re.findall(r"pub fn (rds_\w+)\((.*?)\)", ffi))
    functions = re.findall(r"^\w+ (rds_\w+)\(([^;]*?)\);", DECLARED, re.S | re.M)
    names = {
        name: [part.split()[-1].lstrip("*") for part in given.split(",") if part.strip() != "void"]
        for name, given in functions
    }
    wrong = [name for name, given in declared.items() if re.findall(r"(\w+): ", given) != names[name]]
    assert declared and wrong == []
