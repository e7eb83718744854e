"""`main` of crates/rds, and ways around the contract of the program.

An entry function can have no clause, so the text of `main` is compared. A history notes only what goes through its device (docs/PROOFS.md,
The headline), so no function but `main` may reach a device that is not sealed. Here functions of another module of crates/rds try that: the
compiler has to refuse each, in one copy of the crate, without a proof.
"""

from __future__ import annotations

import re
import shutil

import pytest
from holes import checked, over
from running import TOP, run

# one compilation for all
pytestmark = pytest.mark.xdist_group("main")

CRATE = TOP / "crates" / "rds"
# The runtime by its two names.
RUNTIME = re.compile("HostRuntime|LibcRuntime")
# The lines of main.rt before it uses them: its comment, and the names of its modules. Then its other lines.
HEAD = re.compile(r"(?:(?://!|#!\[tactic\(auto\)\]|mod \w+;).*\n|\n)*")
MAIN = """use crate::ended::{Ended, do_as_asked};
use crate::progress::Teller;
use crate::sealed::Sealed;
use rds_tool::{FromRead, ToWrite};
use std::env;

fn main(rt: HostRuntime) -> Ended {
    do_as_asked(
        env::args(&rt),
        rt.alloc(),
        &rt,
        &Teller::new(rt),
        Sealed::new(FromRead::new(rt.stdin())),
        Sealed::new(ToWrite::new(rt.stdout())),
        Sealed::new(ToWrite::new(rt.stderr())),
    )
}
"""
SOURCES = {path.name: path.read_text("utf-8") for path in (CRATE / "src").rglob("*.rt")}


def faults(texts: dict[str, str]) -> list[str]:
    """How these sources differ from those in which `main` is one expression and alone holds the runtime."""
    holders = [name for name, text in texts.items() for _ in RUNTIME.findall(text)]
    found = [] if holders == ["main.rt"] else [f"the runtime is named in {holders}"]
    head = texts["main.rt"].removesuffix(MAIN)
    return found if head != texts["main.rt"] and HEAD.fullmatch(head) else [*found, "main is another"]


def test_main_is_one_expression() -> None:
    assert faults(SOURCES) == []


# A file, a text of it, and its change.
CHANGES = [
    ("main.rt", "    do_as_asked(", "    let _ = rt.stdin();\n    do_as_asked("),
    ("main.rt", "mod sealed;", "use std::rt::stdin;\nmod sealed;"),
    ("main.rt", "-> Ended {\n    do_as_asked(", "{\n    let _ = do_as_asked("),
    ("main.rt", "use crate::ended::{Ended, do_as_asked};", "use crate::session::{Ended, do_as_asked};"),
    ("ended.rt", "    crew: &C,", "    crew: &std::rt::LibcRuntime,"),
]


@pytest.mark.parametrize(("name", "old", "new"), CHANGES)
def test_a_change_is_found(name: str, old: str, new: str) -> None:
    assert old in SOURCES[name]
    assert faults({**SOURCES, name: SOURCES[name].replace(old, new, 1)})


USES = """use crate::ended::Ended;
use crate::progress::Teller;
use crate::sealed::Sealed;
use rds_tool::{FromRead, Sink, ToWrite};
use std::rt::{Stderr, Stdin, Stdout};
use std::thread::Threads;
"""
# Each escape: its function, and the error that the compiler has to find in it.
ESCAPES = {
    "a_private_field": (
        "pub fn escape(reader: &Sealed<FromRead<Stdin>>) -> &FromRead<Stdin> { &reader.device }",
        "field `device` of struct `Sealed` is private",
    ),
    "the_system_of_the_teller": (
        "pub fn escape<T>(teller: &Teller<T>) -> &T { &teller.system }",
        "field `system` of struct `Teller` is private",
    ),
    "an_unwrapped_writer": (
        "pub fn escape(writer: Sealed<ToWrite<Stdout>>) -> ToWrite<Stdout> { writer.into_inner() }",
        "no method named `into_inner` found for type `Sealed<ToWrite<Stdout>>`",
    ),
    "the_stdin_of_the_crew": (
        "pub fn escape<C: Threads + Sync>(crew: &C) -> Stdin { crew.stdin() }",
        "no method named `stdin` found for type `C`",
    ),
    "a_second_ended": (
        "pub fn escape(first: Ended) -> Ended { let Ended { given, asked, done } = first; Ended { given, asked, done } }",
        "field `given` of struct `Ended` is private",
    ),
}
# What the same functions may do.
ALLOWED = {"no_escape": ("pub fn stay(writer: &Sealed<ToWrite<Stdout>>) -> u64 { writer.failures() }", "")}


@pytest.fixture(scope="module")
def errors(tmp_path_factory: pytest.TempPathFactory) -> list[tuple[str, str]]:
    """Each module with an error of the compiler in it."""
    folder = tmp_path_factory.mktemp("escapes") / "rds"
    shutil.copytree(CRATE, folder, ignore=shutil.ignore_patterns("out"))
    modules = {**ESCAPES, **ALLOWED}
    # without `main` it is a library, whose check links no code
    root = SOURCES["main.rt"].partition("\nfn main(")[0] + "".join(f"mod {name};\n" for name in modules)
    (folder / "src/main.rt").write_text(root, "utf-8")
    for name, (function, _) in modules.items():
        (folder / f"src/{name}.rt").write_text(f"{USES}\n{function}\n", "utf-8")
    ended = run(*checked("rds"), *over("rds"), "--only", "", cwd=folder, timeout=600)
    return re.findall(r"^src/(\w+\.rt):\d+:\d+: error\S*(: .*)", (ended.out + ended.err).decode(), re.M)


@pytest.mark.parametrize("name", ESCAPES)
def test_the_compiler_refuses(errors: list[tuple[str, str]], name: str) -> None:
    wanted = f": {ESCAPES[name][1]}"
    assert any(file == f"{name}.rt" and text.startswith(wanted) for file, text in errors), errors


def test_nothing_else_is_refused(errors: list[tuple[str, str]]) -> None:
    assert {file.removesuffix(".rt") for file, _ in errors} == {*ESCAPES}
