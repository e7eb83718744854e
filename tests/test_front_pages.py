"""The examples on the libraries' front pages, and surface.txt, compile over the libraries that `rt` built.

An example is a block `text` in the head of crates/NAME/src/lib.rt. Here it becomes the body of a function, whose parameters have the names
that the example uses. surface.txt has each public call, by its types. Nothing is proved of it. Then each is tried with a name in it that is
not there: the compiler has to refuse that.
"""

from __future__ import annotations

import os
import re
from pathlib import Path
from typing import NamedTuple

import pytest
from holes import KIT, LIBRARIES, built
from running import TOP, run

# The seconds that one run of the compiler may take.
LIMIT = 300
RECORDING = "alloc: Global, recording: Recording, rules: Rules"
STATE = "live: StreamDecoder<'_>, tail: &[u8], place: u64, state: State, totals: Totals"


class Example(NamedTuple):
    """The crate of an example, a name in it, the parameters of its function, and the declarations that it needs."""

    crate: str
    name: str
    parameters: str
    uses: str

    @property
    def module(self) -> str:
        return f"{self.crate}_{self.name.lower()}"


CODE = "use rds_code::{BlockNumber, BurstLimit, BurstTable, Wanted};"
PIECES = """use rds_pieces::{Cutting, join_runs, speculate, stitch};
use rds_stream::{Counted, Recording};
use rds_sync::Rules;"""
KEEP = """use rds_live::StreamDecoder;
use rds_sync::{Rules, State, Totals};

fn keep(_tail: &[u8], _place: u64, _state: State, _totals: Totals) {}"""
CREW = """use rds_crew::{OpenGate, decode_crew};
use rds_pieces::{Cutting, RecordingWork};
use rds_stream::Recording;
use rds_sync::Rules;"""
ROWS = """ghost use Rattle.std.specs.Prelude.{◌∷◌, [], replicate};
use rds_rows::{Rows, Sheet, Sink, write_rows};"""
READ_BLOCK = f"{CODE}\nuse rds_code::{{Offset, encode_block, read_block}};"
READ_HEARD = f"{CODE}\nuse rds_stream::{{Reader, Recording, read_heard, scan}};"
DECODE_PLAIN = "use rds_stream::Recording;\nuse rds_sync::{Item, Rules, decode_plain};"
SOFT = "use rds_code::{BlockNumber, Wanted};\nuse rds_soft::{Margin, Search};"
LIVE = "use rds_live::{MOST_ITEMS, StreamDecoder};\nuse rds_sync::Rules;"
TRANSCRIBE = "use rds_tool::{FromRead, Input, Job, ToWrite, transcribe};"
BYTES = "bytes: Vec<u8>, gaps: Vec<(u64, u64)>, table: BurstTable"
EXAMPLES = [
    Example("rds_code", "read_block", "alloc: Global", READ_BLOCK),
    Example("rds_stream", "read_heard", f"alloc: Global, {BYTES}", READ_HEARD),
    Example("rds_sync", "decode_plain", "alloc: Global, recording: Recording", DECODE_PLAIN),
    Example("rds_soft", "read", "alloc: Global, symbols: [i8; 27]", SOFT),
    Example("rds_live", "MOST_ITEMS", "alloc: Global, rules: Rules, chunks: Vec<&[u8]>", LIVE),
    Example("rds_live", "resume", f"alloc: Global, rules: Rules, gaps: Vec<(u64, u64)>, {STATE}", KEEP),
    Example("rds_pieces", "stitch", RECORDING, PIECES),
    Example("rds_pieces", "join_runs", f"{RECORDING}, cutting: Cutting", PIECES),
    Example("rds_crew", "decode_crew", f"rt: R, {RECORDING}", CREW),
    Example("rds_crew", "Dealer", "alloc: Global", "use rds_crew::Dealer;"),
    Example("rds_rows", "write_rows", "rt: R, alloc: Global, mut writer: K", ROWS),
    Example("rds_tool", "transcribe", "rt: R, alloc: Global", TRANSCRIBE),
]
SURFACE = Example("surface", "decode_plain", "", "")
# What an example asks of types that it leaves open.
BOUNDS = {"R": "Threads + Sync + Drop", "K": "Sink + Drop"}


def texts_of(crate: str) -> list[str]:
    """The examples in the head of a crate's root file."""
    lines = (TOP / "crates" / crate / "src/lib.rt").read_text().splitlines(True)
    head = "".join(line[4:] or "\n" for line in lines if line.startswith("//!"))
    return re.findall(r"^```text\n(.*?)^```$", head, re.M | re.S)


def text_of(example: Example) -> str:
    """A module that has the example in a function, after the example's items."""
    if example == SURFACE:
        return (TOP / "tests/surface.txt").read_text()
    text = texts_of(example.crate)[[it for it in EXAMPLES if it.crate == example.crate].index(example)]
    item = re.compile(r"^(?:struct|impl)\b[^\n]*(?:;\n|\n(?:.*\n)*?\}\n)", re.M)
    kinds = [
        f"{name}: {bound}" for name, bound in BOUNDS.items() if re.search(rf": {name}\b", example.parameters)
    ]
    return f"""{example.uses}
use anyhow::Result;
use std::alloc::Global;
{"use std::thread::Threads;" if kinds else ""}

{"".join(item.findall(text))}
pub fn example{f"<{', '.join(kinds)}>" if kinds else ""}({example.parameters}) -> Result<()> {{
{item.sub("", text)}    Ok(())
}}
"""


def misnamed(text: str, name: str) -> str:
    """A module whose functions have another name in the place of this one."""
    uses, first, body = text.partition("pub fn")
    return uses + first + re.sub(rf"{name}(?=[^a-z_])", f"{name}_of_another_name", body)


def compiled(folder: Path, modules: dict[str, str]) -> str:
    """What the compiler says of a crate of these modules."""
    words = [f"{KIT}/bin/rattle", *"check --crate-name front_pages src/lib.rt --jobs 1 --only".split(), ""]
    words += ["--logic-built", f"{KIT}/logic_built"]
    words += ["--antt-project", f"{KIT}/rattle/logic/antt-project.json", "-L", f"dependency={KIT}/rlibs"]
    for name in "std anyhow atomic_table clap core csv hex itoa thiserror".split():
        words += ["--extern", f"{name}={KIT}/rlibs/{name}.rlib"]
    for crate in LIBRARIES:
        words += ["--extern", f"{crate}={built(crate)}", "-L", f"dependency={os.path.dirname(built(crate))}"]
    (folder / "src").mkdir(exist_ok=True)
    root = "".join(f"pub mod {name};\n" for name in modules)
    (folder / "src/lib.rt").write_text(f"#![tactic(auto)]\n\n{root}")
    for name, text in modules.items():
        (folder / f"src/{name}.rt").write_text(text)
    ended = run(*words, cwd=folder, timeout=LIMIT)
    return (ended.out + ended.err).decode()


def refused(said: str) -> set[str]:
    """The modules in which the compiler finds an error."""
    places = r"^error.*\n\s*--> (?:\./)?src/(\w+)\.rt|^(?:\./)?src/(\w+)\.rt:\d+:\d+: error"
    return {first or second for first, second in re.findall(places, said, re.M)}


def test_each_example_is_compiled() -> None:
    crates = [example.crate for example in EXAMPLES]
    assert {crate: len(texts_of(crate)) for crate in LIBRARIES} == {it: crates.count(it) for it in LIBRARIES}


@pytest.mark.parametrize("is_misnamed", [False, True])
def test_examples(tmp_path: Path, is_misnamed: bool) -> None:
    modules = {it.module: text_of(it) for it in [*EXAMPLES, SURFACE]}
    if is_misnamed:
        modules = {it.module: misnamed(modules[it.module], it.name) for it in [*EXAMPLES, SURFACE]}
    said = compiled(tmp_path, modules)
    assert refused(said) == ({*modules} if is_misnamed else set()), said[-3000:]
    assert is_misnamed or re.search(r"^only=\d+ ", said, re.M), said[-3000:]
